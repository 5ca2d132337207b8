class 0021 Other java/lang/Object
field 0000 one I
method 0001 <init> ()V 1 1
aload_0
invokespecial java/lang/Object <init> ()V
return
end
