etsgraph 1
array S 32
block turn 2 3
- lit 1 0.0
- sub 0.0 2.0
- fetch S 3.0
- mul 0.0 0.0
- add 4.0 5.0
- store S 0.0 6.0
- add 0.0 2.0
- le 8.0 1.0
out 9.0 8.0 1.0
end
block m 1 1
- lit 0 0.0
- store S 1.0 1.0
- lit 1 0.0
- loop turn 4 3.0 0.0
- fetch S 0.0
out 5.0
end
main m
5
