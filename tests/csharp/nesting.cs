// Classes nested in classes, to a depth of eight, with names that occur again, and classes in no namespace.
using System;

public class Loose
{
    public class Inner
    {
        public class Inner2
        {
            public Inner Up(Loose a, Inner b, Inner2 c) { return b; }
        }
    }
}

internal struct Bare
{
    private enum Kind { A, B }

    private interface IPrivate
    {
        void Run(Kind kind);
    }

    private class Runs : IPrivate
    {
        void IPrivate.Run(Kind kind) { }
    }
}

namespace A
{
    namespace B.C
    {
        public class Same
        {
            public class Same1 { public Same1 Get(Same same) { return null; } }
            protected class Kept { }
            protected internal class Shared { }
            private protected class Both { }
            private class Own { private Own(Own own) { } }
        }
    }

    public class Same
    {
        public class Kept<T>
        {
            public class Kept1<U> : Kept<U>
            {
                public class Kept2<V> : Kept1<V>
                {
                    public Kept<T>.Kept1<U>.Kept2<V> Here(Kept<V>.Kept1<T>.Kept2<U> there) { return null; }

                    public class D4
                    {
                        public class D5
                        {
                            public class D6
                            {
                                public class D7
                                {
                                    public T One;
                                    public D7 Deep(D6 six, D5 five, D4 four, T t, U u, V v) { return this; }
                                    public delegate D7 Makes(D7 from);
                                }
                            }
                        }
                    }
                }
            }
        }
    }
}

namespace A.B
{
    using Same = A.B.C.Same;

    public class User
    {
        public Same Of(Same.Same1 a, A.Same.Kept<int>.Kept1<string> b, global::Loose.Inner.Inner2 c) { return null; }
        public A.Same.Kept<Same>.Kept1<Same[]>.Kept2<Same.Same1>.D4.D5.D6.D7.Makes Far;
        public Nullable<Bar.Baz> Maybe(Bar.Baz? baz) { return baz; }

        public static class Bar
        {
            public struct Baz { }
        }
    }
}
