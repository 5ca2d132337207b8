/** A tree whose nodes weigh what they say. */
class Heavy extends Tree {
    int weight;

    @Override
    int weight() {
        return weight;
    }
}
