# What may be stored in an array of references, and what an object may be cast to.
class 0021 Part java/lang/Object
implements Shown
field 0000 parts [LPart;
method 0001 <init> ()V 1 1
aload_0
invokespecial java/lang/Object <init> ()V
return
end
# the exact component says what fits: that of a subclass refuses
method 0009 store ([LPart;LPart;)V 3 2
aload_0
iconst_0
aload_1
aastore
return
end
# the index is looked at first
method 0009 outside ([LPart;LPart;)V 3 2
aload_0
iconst_1
aload_1
aastore
return
end
method 0009 storeNull ([LPart;)V 3 1
aload_0
iconst_0
aconst_null
aastore
return
end
method 0009 storeMade ([LPart;)LPart; 3 1
aload_0
iconst_0
new Part
aastore
aload_0
iconst_0
aaload
areturn
end
method 0009 storeLiteral ([Ljava/lang/Object;)Ljava/lang/Object; 3 1
aload_0
iconst_0
ldc str x
aastore
aload_0
iconst_0
aaload
areturn
end
# an element that is read for the first time, and again
method 0009 first ([LPart;)LPart; 2 1
aload_0
iconst_0
aaload
pop
aload_0
iconst_0
aaload
areturn
end
# an element that is chosen, of an index that is chosen
method 0009 any ([LPart;I)LPart; 2 2
aload_0
iload_1
aaload
areturn
end
# an array of arrays, and one of an interface
method 0009 nested ([[I)I 2 1
aload_0
iconst_0
aaload
iconst_0
iaload
ireturn
end
method 0009 shown ([LShown;)LShown; 2 1
aload_0
iconst_0
aaload
areturn
end
method 0009 kept (LPart;)LPart; 2 1
aload_0
getfield Part parts [LPart;
iconst_0
aaload
areturn
end
# arrays of references that the run makes
method 0009 made ()[LPart; 4 0
iconst_2
anewarray Part
dup
iconst_1
new Part
aastore
areturn
end
method 0009 madeOfArrays (I)[[I 4 1
iload_0
anewarray [I
dup
iconst_0
iconst_1
newarray 10
aastore
areturn
end
# casts of what comes from the input
method 0009 toPart (Ljava/lang/Object;)LPart; 1 1
aload_0
checkcast Part
areturn
end
method 0009 toShown (Ljava/lang/Object;)LShown; 1 1
aload_0
checkcast Shown
areturn
end
method 0009 toParts (Ljava/lang/Object;)[LPart; 1 1
aload_0
checkcast [LPart;
areturn
end
method 0009 toCloneable (Ljava/lang/Object;)Ljava/lang/Cloneable; 1 1
aload_0
checkcast java/lang/Cloneable
areturn
end
method 0009 isObjects (Ljava/lang/Object;)Z 1 1
aload_0
instanceof [Ljava/lang/Object;
ireturn
end
method 0009 isHalf (LPart;)Z 1 1
aload_0
instanceof Half
ireturn
end
method 0009 isNull ()Z 1 0
aconst_null
instanceof Part
ireturn
end
method 0009 castInt ()V 1 0
iconst_0
checkcast Part
return
end
class 0021 Half Part
method 0001 <init> ()V 1 1
aload_0
invokespecial Part <init> ()V
return
end
class 0601 Shown java/lang/Object
