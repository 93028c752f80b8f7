etsgraph 1
array A 1
block m 2 2
- lit 0 0.0
- store A 2.0 0.0
- store A 2.0 1.0
out 3.0 4.0
end
main m
5
6
