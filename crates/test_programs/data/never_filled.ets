etsgraph 1
array A 2
block m 1 2
- lit 1 0.0
- fetch A 1.0
out 2.0 0.0
end
main m
8
