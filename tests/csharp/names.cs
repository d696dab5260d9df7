// Names that are unusual: other alphabets, keywords, very long ones, names that differ in case.
using System;
using System.Collections.Generic;

namespace Épreuve.Größe.名前
{
    public class Ñandú<Τύπος>
    {
        public Τύπος Значение;

        public Τύπος Получить(Τύπος основа, string @string, int @int)
        {
            return основа;
        }

        public void @class<@object>(@object @this)
        {
        }
    }

    public class longer { public void X(int x) { } public void x(int X) { } }
    public class Longer : longer { }
    public class LONGER : Longer { }

    public class AVeryLongNameThatGoesOnAndOnAndOnAndOnAndOnAndOnAndOnAndOnAndOnAndOnAndOnAndOnAndOnAndOnAndOnAndOnAndOnAndOnAndOnAndOnAndOn<
        TParameterWithANameThatIsAboutAsLongAsTheClassItBelongsToOrPerhapsALittleShorterThanThatButStillRatherLong>
    {
        public Dictionary<
            AVeryLongNameThatGoesOnAndOnAndOnAndOnAndOnAndOnAndOnAndOnAndOnAndOnAndOnAndOnAndOnAndOnAndOnAndOnAndOnAndOnAndOnAndOnAndOn<int>,
            List<AVeryLongNameThatGoesOnAndOnAndOnAndOnAndOnAndOnAndOnAndOnAndOnAndOnAndOnAndOnAndOnAndOnAndOnAndOnAndOnAndOnAndOnAndOnAndOn<
                TParameterWithANameThatIsAboutAsLongAsTheClassItBelongsToOrPerhapsALittleShorterThanThatButStillRatherLong>>> Wide()
        {
            return null;
        }
    }

    public class Repeats<T>
    {
        public Repeats<Repeats<Repeats<Repeats<Repeats<Repeats<Repeats<Repeats<T>>>>>>>> Deep(
            Repeats<Tuple<Repeats<T>, Repeats<T[]>, Repeats<Tuple<T, T>>, Repeats<Tuple<T, T, T>[,]>>> deep)
        {
            return null;
        }

        public void T1(T T) { }
        public void _(T _) { }
        public void __(T __) { }
    }
}

namespace _
{
    class __<_T> { _T _(_T _) { return _; } }
    class A { class B { class C { } } }
}
