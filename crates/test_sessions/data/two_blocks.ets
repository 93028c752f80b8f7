etsgraph 2
array A 1
array B 1
block g 1 1
out 0.0
end
block b 1 2
out 0.0 0.0
end
