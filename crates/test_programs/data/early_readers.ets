etsgraph 1
array A 2
block m 1 3
- lit 0 0.0
- fetch A 1.0
- fetch A 1.0
- store A 1.0 0.0
out 2.0 3.0 4.0
end
main m
8
