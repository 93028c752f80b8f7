etsgraph 1
block m 1 1
out 0.0
end
main m
