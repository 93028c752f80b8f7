etsgraph 1
block even 1 1
- cond 0.0
1+ enter 0.0
1+ lit 1 2.0
1+ sub 2.0 3.0
1+ call odd 4.0
1- enter 0.0
1- lit 1 6.0
- merge 1 5.0 7.0
out 8.0
end
block odd 1 1
- cond 0.0
1+ enter 0.0
1+ lit 1 2.0
1+ sub 2.0 3.0
1+ call even 4.0
1- enter 0.0
1- lit 0 6.0
- merge 1 5.0 7.0
out 8.0
end
main even
13
