class 0021 Pair java/lang/Object
field 0000 x I
method 0009 both (LPair;LPair;)I 1 2
aload_0
getfield Pair x I
iflt m
aload_1
getfield Pair x I
iflt n
iconst_0
ireturn
:n
iconst_1
ireturn
:m
aload_1
getfield Pair x I
iflt b
iconst_2
ireturn
:b
iconst_3
ireturn
end
method 0009 sized ([II)I 1 2
aload_0
ifnull z
iload_1
iflt m
iconst_1
ireturn
:m
iconst_2
ireturn
:z
iconst_0
ireturn
end
