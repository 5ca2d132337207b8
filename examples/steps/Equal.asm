# Object.equals: where a class overrides it, and where it is identity.
class 0021 Equal java/lang/Object
method 0001 <init> ()V 1 1
aload_0
invokespecial java/lang/Object <init> ()V
return
end
method 0001 equals (Ljava/lang/Object;)Z 1 2
iconst_1
ireturn
end
method 0009 both (LEqual;LSame;)Z 2 2
aload_0
aload_1
invokevirtual java/lang/Object equals (Ljava/lang/Object;)Z
ireturn
end
method 0009 same (LSame;LSame;)Z 2 2
aload_0
aload_1
invokevirtual Same equals (Ljava/lang/Object;)Z
ireturn
end
method 0009 withNull (LSame;)Z 2 1
aload_0
aconst_null
invokevirtual java/lang/Object equals (Ljava/lang/Object;)Z
ireturn
end
# on what the run has made: itself, another one, and an object of the input
method 0009 ofRun (LSame;)I 4 2
new Same
dup
invokespecial Same <init> ()V
astore_1
aload_1
aload_1
invokevirtual java/lang/Object equals (Ljava/lang/Object;)Z
aload_1
new Same
invokevirtual java/lang/Object equals (Ljava/lang/Object;)Z
iadd
aload_1
aload_0
invokevirtual java/lang/Object equals (Ljava/lang/Object;)Z
iadd
ireturn
end
# a call on an array: the method is that of java/lang/Object
method 0009 array ([I[I)Z 2 2
aload_0
aload_1
invokevirtual [I equals (Ljava/lang/Object;)Z
ireturn
end
# by invokespecial an override is passed over
method 0001 above (LSame;)Z 2 2
aload_0
aload_1
invokespecial java/lang/Object equals (Ljava/lang/Object;)Z
ireturn
end
# an argument of another kind
method 0009 withInt (LSame;)Z 2 1
aload_0
iconst_1
invokevirtual java/lang/Object equals (Ljava/lang/Object;)Z
ireturn
end
class 0021 Same java/lang/Object
field 0000 flag Z
method 0001 <init> ()V 1 1
aload_0
invokespecial java/lang/Object <init> ()V
return
end
