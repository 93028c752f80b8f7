etsgraph 2
array A 8
block fill 2 3
- lit 1 0.0
- add 0.0 2.0
- mul 0.0 0.0
- store A 0.0 4.0
- lt 3.0 1.0
out 6.0 3.0 1.0
end
block m 1 1
- lit 0 0.0
- loop fill 4 1.0 0.0
- lit 3 0.0
- fetch A 3.0
out 4.0
end
main m
5
