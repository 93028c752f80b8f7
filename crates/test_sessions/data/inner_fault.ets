etsgraph 2
block g 2 1
- rem 0.0 1.0
out 2.0
end
block m 2 1
- call g 0.0 1.0
- add 2.0 0.0
out 3.0
end
main m
