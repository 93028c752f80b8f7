etsgraph 1
array A 8
block produce 1 2
- mul 0.0 0.0
- store A 0.0 1.0
- lit 1 0.0
- add 0.0 3.0
- lit 8 0.0
- lt 4.0 5.0
out 6.0 4.0
end
block consume 2 3
- fetch A 0.0
- add 1.0 2.0
- lit 1 0.0
- add 0.0 4.0
- lit 8 0.0
- lt 5.0 6.0
out 7.0 5.0 3.0
end
block m 1 1
- lit 0 0.0
- loop consume 4 1.0 1.0
- loop produce 2 0.0
out 2.1
end
main m
0
