/* Lists and trees: pointers that the compiler knows apart, or doesn't. */
struct node {
    int key, count;
    struct node *left, *right;
};

struct pair {
    int *from, *to;
    int moved;
};

struct node *insert(struct node *root, struct node *fresh)
{
    struct node **at = &root;
    while (*at) {
        if ((*at)->key == fresh->key) {
            (*at)->count += fresh->count;
            return root;
        }
        at = fresh->key < (*at)->key ? &(*at)->left : &(*at)->right;
    }
    fresh->left = fresh->right = 0;
    *at = fresh;
    return root;
}

void exchange(int *a, int *b)
{
    int kept = *a;
    *a = *b;
    *b = kept;
}

int move(struct pair *pair, int length)
{
    for (int k = 0; k < length; k++) {
        pair->to[k] = pair->from[k];
        pair->moved++;
    }
    return pair->moved;
}

int sum(const struct node *root)
{
    return root ? root->count + sum(root->left) + sum(root->right) : 0;
}
