// Iterators, extension methods, queries, anonymous types, async methods: classes that the compiler makes.
using System;
using System.Collections;
using System.Collections.Generic;
using System.Linq;
using System.Threading.Tasks;

namespace Streams
{
    public static class Extensions
    {
        public static IEnumerable<T> Every<T>(this IEnumerable<T> items, int step)
        {
            int i = 0;
            foreach (T item in items)
            {
                if (i++ % step == 0)
                {
                    yield return item;
                }
            }
        }

        public static IEnumerator<KeyValuePair<TKey, TValue[]>> Groups<TKey, TValue>(this IDictionary<TKey, List<TValue>> of)
            where TKey : IComparable<TKey>
        {
            foreach (KeyValuePair<TKey, List<TValue>> pair in of)
            {
                yield return new KeyValuePair<TKey, TValue[]>(pair.Key, pair.Value.ToArray());
            }
        }

        public static string Joined(this string[] words, char between = ',')
        {
            return string.Join(between.ToString(), words);
        }

        public static bool IsEven(this int number)
        {
            return number % 2 == 0;
        }
    }

    public class Reader : IEnumerable<string>
    {
        private readonly string[] lines = { "a", "b" };

        public IEnumerator<string> GetEnumerator()
        {
            try
            {
                foreach (string line in lines)
                {
                    yield return line;
                }
            }
            finally
            {
                lines[0] = null;
            }
        }

        IEnumerator IEnumerable.GetEnumerator()
        {
            return GetEnumerator();
        }

        public IEnumerable Numbers(int from, int to)
        {
            for (int i = from; i < to; i++)
            {
                yield return i;
            }
        }

        public object Query(int[] numbers)
        {
            var pairs = from n in numbers
                        where n.IsEven()
                        let square = n * n
                        orderby square descending
                        select new { Number = n, Square = square };
            return pairs.Select(pair => new { pair.Number, Text = pair.Square.ToString() }).ToList();
        }

        public async Task<int> Later(Func<Task<int>> first, Task[] all)
        {
            int n = await first();
            await Task.WhenAll(all);
            return n;
        }

        public async Task Then(IProgress<float> progress)
        {
            await Task.Delay(1);
            progress.Report(1f);
        }

        public dynamic Loose(dynamic one, List<dynamic> many)
        {
            return one + many.Count;
        }

        public (int Count, string Text) Tuple((long, double[]) from)
        {
            return (1, from.ToString());
        }
    }
}
