class 0021 Node java/lang/Object
field 0000 elem I
field 0000 next LNode;
method 0001 <init> ()V 1 1
aload_0
invokespecial java/lang/Object <init> ()V
return
end
method 0001 swapNode ()LNode; 3 2
aload_0
getfield Node next LNode;
ifnull e
aload_0
getfield Node elem I
aload_0
getfield Node next LNode;
getfield Node elem I
if_icmple e
aload_0
getfield Node next LNode;
astore_1
aload_0
aload_1
getfield Node next LNode;
putfield Node next LNode;
aload_1
aload_0
putfield Node next LNode;
aload_1
areturn
:e
aload_0
areturn
end
method 0009 m (LNode;LNode;)I 2 2
aload_0
aconst_null
putfield Node next LNode;
aload_1
getfield Node next LNode;
ifnonnull z
iconst_1
ireturn
:z
iconst_0
ireturn
end
method 0001 contains (I)Z 2 3
aload_0
astore_2
:t
aload_2
ifnull f
aload_2
getfield Node elem I
iload_1
if_icmpne n
iconst_1
ireturn
:n
aload_2
getfield Node next LNode;
astore_2
goto t
:f
iconst_0
ireturn
end
method 0009 e (LNode;LNode;)I 2 2
aload_0
aload_1
if_acmpeq s
iconst_0
ireturn
:s
iconst_1
ireturn
end
