etsgraph 1
block m 8 1
- add 0.0 1.0
- add 2.0 3.0
- add 4.0 5.0
- add 6.0 7.0
- add 8.0 9.0
- add 10.0 11.0
- add 12.0 13.0
out 14.0
end
main m
