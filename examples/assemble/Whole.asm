class 0021 Whole java/lang/Object
implements java/lang/Comparable
implements java/io/Serializable
field 0002 count I
field 0000 next LWhole;
method 0109 outside (J[DLjava/lang/String;)V
method 0001 <init> ()V 1 1
aload_0
invokespecial java/lang/Object <init> ()V
return
end
method 0001 compareTo (Ljava/lang/Object;)I 2 2
aload_0
getfield Whole count I
aload_1
checkcast Whole
getfield Whole count I
isub
ireturn
end
method 0009 numbers ()I 2 302
bipush -7
sipush 300
iadd
ldc int 100000
iadd
ldc_w int -100000
iadd
istore 300
iload 300
istore 4
iinc 4 7
iload 4
ireturn
end
method 0009 objects ()I 3 300
new Whole
dup
invokespecial Whole <init> ()V
astore 256
aload 256
astore 5
aload 5
bipush 40
putfield Whole count I
aload 5
aload 256
putfield Whole next LWhole;
ldc str hello
invokevirtual java/lang/String length ()I
ldc_w str a%20b
invokevirtual java/lang/String length ()I
iadd
aload 5
getfield Whole next LWhole;
getfield Whole count I
iadd
aload 5
aload 256
invokeinterface java/lang/Comparable compareTo (Ljava/lang/Object;)I
iadd
aload 5
instanceof [[Ljava/lang/String;
iadd
iconst_3
anewarray [I
arraylength
iadd
iconst_4
newarray 10
arraylength
iadd
ireturn
end
method 0009 branches (I)I 1 1
iload_0
tableswitch 0 other zero one
:zero
bipush 10
ireturn
:one
goto_w two
:two
bipush 20
ireturn
:other
iload_0
lookupswitch none -5:minus 1000:plenty
:minus
bipush 30
ireturn
:plenty
bipush 40
ireturn
:none
iload_0
ifge positive
goto negative
:positive
iconst_1
ireturn
:negative
iconst_m1
ireturn
end
method 0009 caught (II)I 2 2
:start
iload_0
iload_1
idiv
:behind
ireturn
:handler
pop
raw 02
raw ac
:last
pop
iconst_0
ireturn
catch start behind handler java/lang/ArithmeticException
catch start behind last any
end
method 0009 main ([Ljava/lang/String;)V 3 1
invokestatic Whole numbers ()I
invokestatic Whole objects ()I
iadd
iconst_0
invokestatic Whole branches (I)I
iadd
iconst_1
invokestatic Whole branches (I)I
iadd
bipush -5
invokestatic Whole branches (I)I
iadd
sipush 1000
invokestatic Whole branches (I)I
iadd
iconst_5
invokestatic Whole branches (I)I
iadd
bipush -9
invokestatic Whole branches (I)I
iadd
bipush 9
iconst_0
invokestatic Whole caught (II)I
iadd
bipush 9
iconst_3
invokestatic Whole caught (II)I
iadd
sipush 415
isub
invokestatic java/lang/System exit (I)V
return
end
