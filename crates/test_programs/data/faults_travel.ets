etsgraph 2
block m 2 2
- div 0.0 1.0
- add 2.0 0.0
- sub 0.0 1.0
out 3.0 4.0
end
main m
7
0
