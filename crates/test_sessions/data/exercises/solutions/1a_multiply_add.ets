etsgraph 1
block m 3 1
- mul 0.0 1.0
- add 3.0 2.0
out 4.0
end
main m
2
3
4
