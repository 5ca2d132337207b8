# Literals: one object for each text of all classes, by their bytes.
class 0021 Texts java/lang/Object
method 0009 both (I)Ljava/lang/String; 1 1
iload_0
ifne a
ldc str b
areturn
:a
ldc str a
areturn
end
# a text of two classes is one object
method 0009 same ()I 2 0
ldc str b
invokestatic Others b ()Ljava/lang/String;
if_acmpne other
iconst_1
ireturn
:other
iconst_0
ireturn
end
# no input holds a literal
method 0009 compared (Ljava/lang/Object;)I 2 1
aload_0
ldc str a
if_acmpne other
iconst_1
ireturn
:other
iconst_0
ireturn
end
method 0009 cast ()Ljava/lang/Comparable; 1 0
ldc str b
checkcast java/lang/Comparable
areturn
end
method 0009 castFails ()LTexts; 1 0
ldc str b
checkcast Texts
areturn
end
method 0009 isText ()Z 1 0
ldc str b
instanceof java/lang/String
ireturn
end
method 0009 thrown ()V 1 0
ldc str a
athrow
end
method 0009 field ()I 1 0
ldc str a
getfield Others kept I
ireturn
end
method 0009 length ()I 1 0
ldc str a
arraylength
ireturn
end
# Object.equals on a literal is identity
method 0009 equal (Ljava/lang/Object;)Z 2 1
ldc str a
aload_0
invokevirtual java/lang/Object equals (Ljava/lang/Object;)Z
ireturn
end
method 0009 equalItself ()Z 2 0
ldc str a
ldc str a
invokevirtual java/lang/Object equals (Ljava/lang/Object;)Z
ireturn
end
# a method of a class that a literal is none of
method 0009 other ()Ljava/lang/String; 1 0
ldc str a
invokevirtual Others own ()Ljava/lang/String;
areturn
end
class 0021 Others java/lang/Object
field 0000 kept I
method 0009 b ()Ljava/lang/String; 1 0
ldc str b
areturn
end
method 0001 own ()Ljava/lang/String; 1 1
ldc str c
areturn
end
# a literal is of java/lang/String, also where no class names that
class 0021 Lone java/lang/Object
method 0009 equal ()Z 2 0
ldc str a
aconst_null
invokeinterface java/lang/Comparable equals (Ljava/lang/Object;)Z
ireturn
end
