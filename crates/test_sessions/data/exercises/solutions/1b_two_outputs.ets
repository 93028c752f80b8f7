etsgraph 1
block m 2 2
- add 0.0 1.0
- sub 0.0 1.0
out 2.0 3.0
end
main m
7
3
