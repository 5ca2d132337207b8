# An exception that is made with a text.
class 0021 Worded java/lang/Object
method 0009 t (I)V 3 1
iload_0
ifge r
new java/lang/IllegalArgumentException
dup
ldc str x
invokespecial java/lang/IllegalArgumentException <init> (Ljava/lang/String;)V
athrow
:r
return
end
