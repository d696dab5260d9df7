// Delegates, events with and without accessors of their own, lambdas that capture.
using System;
using System.Collections.Generic;

namespace Bells
{
    public delegate void Rings(object sender, int times);
    public delegate TResult Asks<in TQuestion, out TResult>(TQuestion question);
    public delegate ref int Picks(ref int a, ref int b);
    public delegate Func<int, Func<string, bool>> Curried(Action<Action> outer);

    public class RingArgs : EventArgs
    {
        public int Times { get; set; }
    }

    public class Bell
    {
        public event Rings Rung;
        public event EventHandler<RingArgs> Heard;
        public static event Action<Bell, string[]> Made;
        private readonly List<Rings> later = new List<Rings>();

        public event Rings Later
        {
            add { later.Add(value); }
            remove { later.Remove(value); }
        }

        protected virtual event Asks<int[], string> Asked;

        public void Ring(int times)
        {
            int before = times;
            Rings each = (sender, n) => before += n;
            each(this, times);
            Rung?.Invoke(this, before);
            Heard?.Invoke(this, new RingArgs { Times = before });
            Made?.Invoke(this, new[] { "ring" });
            string answer = Asked?.Invoke(new[] { times });
            later.ForEach(one => one(answer, before));
        }

        public Func<int, int> Adds(int by)
        {
            return n => n + by;
        }

        public Curried Curry()
        {
            return outer => n => text => text.Length == n;
        }

        public T Once<T>(Func<T> make, Action<T> use)
        {
            T made = make();
            Action run = delegate { use(made); };
            run();
            return made;
        }
    }
}
