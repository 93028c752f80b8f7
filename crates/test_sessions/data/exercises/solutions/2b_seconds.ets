etsgraph 1
block m 3 1
- lit 60 0.0
- mul 0.0 3.0
- add 4.0 1.0
- mul 5.0 3.0
- add 6.0 2.0
out 7.0
end
main m
1
2
5
