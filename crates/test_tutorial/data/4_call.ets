etsgraph 1
block square 1 1
- mul 0.0 0.0
out 1.0
end
block m 2 1
- call square 0.0
- call square 1.0
- add 2.0 3.0
out 4.0
end
main m
3
4
