# Which method is called. Every class but Bare has a constructor.
class 0021 Top java/lang/Object
field 0000 kept I
method 0001 <init> ()V 1 1
aload_0
invokespecial java/lang/Object <init> ()V
return
end
method 0001 m ()I 1 1
iconst_1
ireturn
end
method 0009 ofTop (LTop;)I 1 1
aload_0
invokevirtual Top m ()I
ireturn
end
# an argument of another kind beside a null receiver, a receiver that is an int, and one that is missing
method 0009 illBesideNull ()I 2 0
aconst_null
aconst_null
invokevirtual Top with (I)I
ireturn
end
method 0009 onInt ()I 2 0
iconst_1
iconst_1
invokevirtual Top with (I)I
ireturn
end
method 0009 onNothing ()I 2 0
iconst_1
invokevirtual Top with (I)I
ireturn
end
method 0009 onNull ()I 2 0
aconst_null
iconst_1
invokevirtual Top with (I)I
ireturn
end
method 0009 specialOnNull ()I 2 0
aconst_null
iconst_1
invokespecial Top with (I)I
ireturn
end
method 0001 with (I)I 1 2
iload_1
ireturn
end
# a receiver that is none of the class that the call names
method 0009 other (LBare;)I 1 1
aload_0
invokevirtual Top m ()I
ireturn
end
# by invokespecial nobody looks what the receiver is
method 0009 otherSpecial (LBare;)I 1 1
aload_0
invokespecial Top m ()I
ireturn
end
# a constructor that the class lacks is that of a class above it
method 0009 bare ()I 2 0
new Bare
dup
invokespecial Bare <init> ()V
getfield Bare kept I
ireturn
end
class 0021 Mid Top
method 0001 <init> ()V 1 1
aload_0
invokespecial Top <init> ()V
return
end
method 0001 m ()I 1 1
iconst_2
ireturn
end
# the method of the class itself, of this class and not of the receiver's
method 0001 own ()I 1 1
aload_0
invokespecial Mid m ()I
ireturn
end
class 0021 Low Mid
method 0001 <init> ()V 1 1
aload_0
invokespecial Mid <init> ()V
return
end
method 0001 m ()I 1 1
iconst_3
ireturn
end
# named is the class two above, and the search begins at the one above
method 0001 above ()I 1 1
aload_0
invokespecial Top m ()I
ireturn
end
# the same where the flag ACC_SUPER is not there
class 0001 Unflagged Mid
method 0001 <init> ()V 1 1
aload_0
invokespecial Mid <init> ()V
return
end
method 0001 m ()I 1 1
iconst_4
ireturn
end
method 0001 above ()I 1 1
aload_0
invokespecial Top m ()I
ireturn
end
# a private method of that name and type, and a static one, are passed over
class 0021 Hidden Mid
method 0001 <init> ()V 1 1
aload_0
invokespecial Mid <init> ()V
return
end
method 0002 m ()I 1 1
iconst_5
ireturn
end
class 0021 Fixed Mid
method 0001 <init> ()V 1 1
aload_0
invokespecial Mid <init> ()V
return
end
method 0009 m ()I 1 0
iconst_m1
ireturn
end
class 0021 Bare java/lang/Object
field 0000 kept I
