# The worked rows: an index and a length that are not known, and one element that is read twice.
class 0021 Arrays java/lang/Object
method 0009 get ([II)I 2 2
aload_0
iload_1
iaload
ireturn
end
method 0009 a (I)I 1 1
iload_0
newarray 10
arraylength
ireturn
end
method 0009 twice ([II)I 3 2
aload_0
iload_1
iaload
aload_0
iload_1
iaload
isub
ireturn
end
# a constant index and a constant length are chosen by nobody
method 0009 constant ([I)I 2 1
aload_0
iconst_1
iaload
ireturn
end
method 0009 three ()[I 1 0
iconst_3
newarray 10
areturn
end
# an index that is neither 0 nor 1
method 0009 neither ([II)I 2 2
iload_1
ifeq low
iload_1
iconst_1
if_icmpeq low
aload_0
iload_1
iaload
ireturn
:low
iconst_m1
ireturn
end
# a boolean array keeps the lowest bit, and gives back what it keeps
method 0009 bits (I)I 4 1
iconst_1
newarray 4
dup
iconst_0
iload_0
bastore
iconst_0
baload
ireturn
end
method 0009 bit ([ZI)Z 3 2
aload_0
iconst_0
iload_1
bastore
aload_0
iconst_0
baload
ireturn
end
# arrays of another kind, and what is no array: null comes first, the index later
method 0009 intsAsBooleans ([II)I 2 2
aload_0
iload_1
baload
ireturn
end
method 0009 booleansAsInts ([Z)V 3 1
aload_0
iconst_0
iconst_1
iastore
return
end
method 0009 intsAsReferences ([I)Ljava/lang/Object; 2 1
aload_0
iconst_0
aaload
areturn
end
method 0009 noArray (LArrays;)I 2 1
aload_0
iconst_0
iaload
ireturn
end
method 0009 noLength (LArrays;)I 1 1
aload_0
arraylength
ireturn
end
# wrong kinds of operands come before null
method 0009 nullIndex ([I)I 2 1
aload_0
aconst_null
iaload
ireturn
end
method 0009 nullForInt ()V 3 0
aconst_null
iconst_0
aconst_null
iastore
return
end
method 0009 intForReference ()V 3 0
aconst_null
iconst_0
iconst_0
aastore
return
end
method 0009 nullLength ()V 1 0
aconst_null
newarray 10
return
end
method 0009 onNull ()V 3 0
aconst_null
iconst_m1
iconst_0
iastore
return
end
# a made array: what is written into it, and read from it
method 0009 filled (I)[I 4 1
iconst_2
newarray 10
dup
iconst_1
iload_0
iastore
areturn
end
method 0009 twoArrays ()I 2 0
iconst_0
newarray 10
iconst_0
newarray 10
if_acmpeq same
iconst_0
ireturn
:same
iconst_1
ireturn
end
# an index of a made array
method 0009 of (I)I 2 1
iconst_2
newarray 10
iload_0
iaload
ireturn
end
