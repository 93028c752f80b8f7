etsgraph 1
array A 8
block b 2 3
- lit 1 0.0
- lit 3 0.0
- lit 5 0.0
- add 0.0 2.0
- add 0.0 3.0
- store A 0.0 0.0
- fetch A 6.0
- add 1.0 8.0
- lt 5.0 4.0
out 10.0 5.0 9.0
end
block m 1 1
- lit 0 0.0
- lit 5 0.0
- lit 6 0.0
- lit 7 0.0
- store A 2.0 2.0
- store A 3.0 3.0
- store A 4.0 4.0
- loop b 4 1.0 1.0
out 8.1
end
main m
