etsgraph 1
block m 4 1
- mul 0.0 1.0
- mul 2.0 3.0
- add 4.0 5.0
out 6.0
end
main m
2
3
4
5
