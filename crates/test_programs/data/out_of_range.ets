etsgraph 2
array A 2
block m 2 2
- fetch A 0.0
- store A 1.0 0.0
out 2.0 3.0
end
main m
2
-1
