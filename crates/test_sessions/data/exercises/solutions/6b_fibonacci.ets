etsgraph 1
block turn 3 4
- lit 1 0.0
- sub 0.0 3.0
- add 1.0 2.0
out 4.0 4.0 2.0 5.0
end
block m 1 1
- lit 0 0.0
- lit 1 0.0
- loop turn 2 0.0 1.0 2.0
out 3.1
end
main m
10
