// The ring below std::list: what libstdc++ has outside of its headers.
struct node {
  struct node *next, *previous;
};

void _ZNSt8__detail15_List_node_base7_M_hookEPS0_(struct node *at, struct node *before) {
  at->next = before;
  at->previous = before->previous;
  before->previous->next = at;
  before->previous = at;
}

void _ZNSt8__detail15_List_node_base9_M_unhookEv(struct node *at) {
  at->next->previous = at->previous;
  at->previous->next = at->next;
}

void _ZNSt8__detail15_List_node_base11_M_transferEPS0_S1_(struct node *at, struct node *first, struct node *end) {
  if (at == end) return;
  struct node *last = end->previous, *before = at->previous;
  first->previous->next = end;
  end->previous = first->previous;
  last->next = at;
  at->previous = last;
  before->next = first;
  first->previous = before;
}

void _ZNSt8__detail15_List_node_base10_M_reverseEv(struct node *ring) {
  struct node *at = ring;
  do {
    struct node *next = at->next;
    at->next = at->previous;
    at->previous = next;
    at = next;
  } while (at != ring);
}

void _ZNSt8__detail15_List_node_base4swapERS0_S1_(struct node *one, struct node *two) {
  struct node first = *one, second = *two;
  if (second.next == two) one->next = one->previous = one;
  else {
    *one = second;
    one->next->previous = one->previous->next = one;
  }
  if (first.next == one) two->next = two->previous = two;
  else {
    *two = first;
    two->next->previous = two->previous->next = two;
  }
}
