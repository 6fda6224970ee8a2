#> trace 1 nq=1 nv=1 steps=10
#> step 1
#> q -575310
#> v -287655113
#> a -143827549492
#> residual 616004768
#> radius * *
#> rows 0 idle 0
#> stop none
#> cost 0 0
#> ball 30 1073741824 1
#> step 2
#> q -1678219
#> v -551454413
#> a -131899643926
#> residual 137808688
#> radius * *
#> rows 0 idle 0
#> stop none
#> cost 0 0
#> ball 30 1073741824 1
#> step 3
#> q -3264972
#> v -793376296
#> a -120960935964
#> residual 428950012
#> radius * *
#> rows 0 idle 0
#> stop none
#> cost 0 0
#> ball 30 1073741824 1
#> step 4
#> q -5295442
#> v -1015235057
#> a -110929375468
#> residual 580817824
#> radius * *
#> rows 0 idle 0
#> stop none
#> cost 0 0
#> ball 30 1073741824 1
#> step 5
#> q -7732831
#> v -1218694496
#> a -101729714666
#> residual 535067440
#> radius * *
#> rows 0 idle 0
#> stop none
#> cost 0 0
#> ball 30 1073741824 1
#> step 6
#> q -10543392
#> v -1405280393
#> a -93292944292
#> residual 73182176
#> radius * *
#> rows 0 idle 0
#> stop none
#> cost 0 0
#> ball 30 1073741824 1
#> step 7
#> q -13696176
#> v -1576391951
#> a -85555774807
#> residual 128647944
#> radius * *
#> rows 0 idle 0
#> stop none
#> cost 0 0
#> ball 30 1073741824 1
#> step 8
#> q -17162801
#> v -1733312293
#> a -78460167097
#> residual 396330888
#> radius * *
#> rows 0 idle 0
#> stop none
#> cost 0 0
#> ball 30 1073741824 1
#> step 9
#> q -20917237
#> v -1877218087
#> a -71952893705
#> residual 102279919
#> radius * *
#> rows 0 idle 0
#> stop none
#> cost 0 0
#> ball 30 1073741824 1
#> step 10
#> q -24935614
#> v -2009188374
#> a -65985140254
#> residual 278307666
#> radius * *
#> rows 0 idle 0
#> stop none
#> cost 0 0
#> ball 30 1073741824 1
#> end done
../../../crates/mj/out/mj gen --links 1 --seed 7
