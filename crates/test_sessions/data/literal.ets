etsgraph 1
block m 1 1
- lit 1 0.0
- add 0.0 1.0
out 2.0
end
main m
