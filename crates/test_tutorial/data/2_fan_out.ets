etsgraph 1
block m 1 1
- lit 1 0.0
- add 0.0 1.0
- mul 2.0 0.0
- sub 3.0 0.0
out 4.0
end
main m
6
