etsgraph 1
block divide 2 2
- div 0.0 1.0
- rem 0.0 1.0
out 2.0 3.0
end
block m 1 2
- lit 10 0.0
- call divide 0.0 1.0
- call divide 2.0 1.0
out 3.1 2.1
end
main m
1234
