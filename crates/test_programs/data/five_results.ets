etsgraph 1
block m 2 5
- sub 0.0 1.0
- add 0.0 1.0
- mul 0.0 1.0
- and 0.0 1.0
- lt 0.0 1.0
out 2.0 3.0 4.0 5.0 6.0
end
main m
10
3
