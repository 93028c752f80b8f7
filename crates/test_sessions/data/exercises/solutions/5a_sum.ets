etsgraph 1
block sum 1 1
- cond 0.0
1+ enter 0.0
1+ lit 1 2.0
1+ sub 2.0 3.0
1+ call sum 4.0
1+ add 2.0 5.0
1- enter 0.0
- merge 1 6.0 7.0
out 8.0
end
main sum
10
