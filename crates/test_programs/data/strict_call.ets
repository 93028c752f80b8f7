etsgraph 2
array A 1
block g 2 1
out 0.0
end
block m 2 2
- lit 0 0.0
- fetch A 2.0
- scall g 0.0 3.0
- add 4.0 1.0
- store A 2.0 5.0
out 4.0 6.0
end
main m
4
3
