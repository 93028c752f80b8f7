etsgraph 2
array A 2
block m 2 2
- store A 1.0 0.0
- div 0.0 1.0
out 2.0 3.0
end
main m
