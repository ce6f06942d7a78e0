package java.util.concurrent;

import java.io.Serializable;
import java.util.AbstractQueue;
import java.util.Collection;
import java.util.Iterator;
import java.util.NoSuchElementException;
import java.util.Queue;

/** A queue of linked nodes, whose iterators go on over changes; as no threads run, nothing is done for them. */
public class ConcurrentLinkedQueue<E> extends AbstractQueue<E> implements Queue<E>, Serializable {
    private static final class Node<E> {
        private E item;
        private Node<E> next;
    }

    /** The node before the first element. */
    private Node<E> head = new Node<>();
    private Node<E> tail = head;

    public ConcurrentLinkedQueue() {}

    public ConcurrentLinkedQueue(Collection<? extends E> given) {
        addAll(given);
    }

    @Override
    public boolean offer(E item) {
        if (item == null) {
            throw new NullPointerException();
        }
        Node<E> last = new Node<>();
        last.item = item;
        tail.next = last;
        tail = last;
        return true;
    }

    @Override
    public E poll() {
        Node<E> first = head.next;
        if (first == null) {
            return null;
        }
        E item = first.item;
        first.item = null;
        head = first;
        return item;
    }

    @Override
    public E peek() {
        return head.next == null ? null : head.next.item;
    }

    @Override
    public boolean isEmpty() {
        return head.next == null;
    }

    @Override
    public int size() {
        int size = 0;
        for (Node<E> at = head.next; at != null; at = at.next) {
            size++;
        }
        return size;
    }

    private void unlink(Node<E> node) {
        Node<E> before = head;
        while (before.next != null && before.next != node) {
            before = before.next;
        }
        if (before.next == node) {
            before.next = node.next;
            tail = tail == node ? before : tail;
        }
    }

    @Override
    public Iterator<E> iterator() {
        return new Iterator<E>() {
            private Node<E> next = head.next;
            private Node<E> last;

            @Override
            public boolean hasNext() {
                return next != null;
            }

            @Override
            public E next() {
                if (next == null) {
                    throw new NoSuchElementException();
                }
                last = next;
                E item = next.item;
                next = next.next;
                return item;
            }

            @Override
            public void remove() {
                if (last == null) {
                    throw new IllegalStateException();
                }
                unlink(last);
                last = null;
            }
        };
    }
}
