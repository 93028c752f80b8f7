etsgraph 1
array SQUARES 16
block turn 1 2
- lit 1 0.0
- sub 0.0 1.0
- mul 0.0 0.0
- store SQUARES 0.0 3.0
out 2.0 2.0
end
block m 2 1
- loop turn 4 0.0
- fetch SQUARES 1.0
out 3.0
end
main m
6
4
