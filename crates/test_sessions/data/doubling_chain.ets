etsgraph 1
block m 1 1
- add 0.0 0.0
- add 1.0 1.0
- add 2.0 2.0
- add 3.0 3.0
out 4.0
end
main m
