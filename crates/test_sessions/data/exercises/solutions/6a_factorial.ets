etsgraph 1
block turn 2 3
- lit 1 0.0
- sub 0.0 2.0
- mul 1.0 0.0
out 3.0 3.0 4.0
end
block m 1 1
- lit 1 0.0
- loop turn 2 0.0 1.0
out 2.1
end
main m
5
