etsgraph 1
block square 1 1
- mul 0.0 0.0
out 1.0
end
block m 3 1
- call square 0.0
- call square 1.0
- call square 2.0
- add 3.0 4.0
- add 6.0 5.0
out 7.0
end
main m
1
2
3
