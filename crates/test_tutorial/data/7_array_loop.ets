etsgraph 1
array A 8
block fill 1 2
- lit 1 0.0
- sub 0.0 1.0
- fetch A 2.0
- add 3.0 0.0
- store A 0.0 4.0
out 2.0 2.0
end
block m 3 1
- fetch A 1.0
- lit 0 0.0
- store A 4.0 4.0
- store A 2.0 0.0
- loop fill 4 0.0
out 3.0
end
main m
4
4
6
