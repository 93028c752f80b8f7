etsgraph 1
block m 1 1
- lit 3 0.0
- mul 1.0 0.0
- lit 2 2.0
- add 2.0 3.0
- mul 4.0 0.0
- lit 1 5.0
- add 5.0 6.0
out 7.0
end
main m
4
