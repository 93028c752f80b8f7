etsgraph 2
block g 1 1
- neg 0.0
out 1.0
end
block m 1 1
- scall g 0.0
- scall g 1.0
out 2.0
end
main m
