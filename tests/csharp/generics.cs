// Generic classes, methods and constraints; classes nested in generic ones; base types made of generic parameters.
using System;
using System.Collections.Generic;

namespace Sets
{
    public interface IReads<out T>
    {
        T Read();
    }

    public interface IWrites<in T>
    {
        void Write(T value);
    }

    public abstract class Cell<T> : IReads<T>, IWrites<T>
    {
        protected T held;

        public abstract T Read();

        public virtual void Write(T value)
        {
            held = value;
        }
    }

    public class Pair<TFirst, TSecond> : IEquatable<Pair<TFirst, TSecond>>
        where TFirst : class, new()
        where TSecond : struct, IComparable<TSecond>
    {
        public TFirst First = new TFirst();
        public TSecond Second;

        public bool Equals(Pair<TFirst, TSecond> other)
        {
            return other != null && Second.CompareTo(other.Second) == 0;
        }

        public Pair<TOther, TSecond> With<TOther>(TOther first) where TOther : class, new()
        {
            return new Pair<TOther, TSecond> { First = first, Second = Second };
        }

        public class Inner<TThird> : Cell<KeyValuePair<TFirst, TThird[]>>
        {
            public override KeyValuePair<TFirst, TThird[]> Read()
            {
                return held;
            }

            public struct Deepest<T4, T5> where T4 : TFirst
            {
                public T4 A;
                public Dictionary<T5, List<Inner<TThird>>> B;

                public Deepest<T4, T5>[] Many(TFirst a, TSecond b, TThird c, T4 d, T5 e)
                {
                    return new Deepest<T4, T5>[1];
                }
            }

            public enum Kind : byte
            {
                None,
                Some
            }
        }

        public delegate TSecond Chooses<TKey>(TKey key, TFirst first) where TKey : IEnumerable<TFirst>;
    }

    public class Names : Dictionary<string, List<int>>, IReads<string>, IReads<object>
    {
        string IReads<string>.Read()
        {
            return "names";
        }

        object IReads<object>.Read()
        {
            return this;
        }
    }

    public class Node<T> : Cell<T>, IComparable<Node<T>> where T : IComparable<T>
    {
        public Node<T> Left, Right;
        public Node<Node<T>> Outer;

        public override T Read()
        {
            return held;
        }

        public int CompareTo(Node<T> other)
        {
            return held.CompareTo(other.held);
        }

        public static Node<T> operator +(Node<T> a, Node<T> b)
        {
            return a.CompareTo(b) < 0 ? a : b;
        }

        public IEnumerable<Node<T>> Walk(Func<Node<T>, bool> wanted, Action<T>[] seen, ref T last, out Node<T>[] path)
        {
            path = null;
            return null;
        }
    }

    public static class Sorts
    {
        public static T Most<T>(IEnumerable<T> items, Comparison<T> by) where T : class
        {
            T most = null;
            foreach (T item in items)
            {
                if (most == null || by(item, most) > 0)
                {
                    most = item;
                }
            }
            return most;
        }

        public static TResult[][] Map<TItem, TResult>(TItem[][] rows, Converter<TItem, TResult> each)
        {
            return Array.ConvertAll(rows, row => Array.ConvertAll(row, each));
        }

        public static void Swap<T>(ref T a, ref T b) where T : struct
        {
            T c = a;
            a = b;
            b = c;
        }
    }
}
