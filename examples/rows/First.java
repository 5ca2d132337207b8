// Of P and Q, here and in Second.java, each extends the other.
interface P extends Q {
}

interface Q {
}
