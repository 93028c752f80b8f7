etsgraph 1
block fact 1 1
- cond 0.0
1+ enter 0.0
1+ lit 1 2.0
1+ sub 2.0 3.0
1+ call fact 4.0
1+ mul 2.0 5.0
1- enter 0.0
1- lit 1 7.0
- merge 1 6.0 8.0
out 9.0
end
main fact
20
