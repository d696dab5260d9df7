// A few plain classes: the smallest of the set.
using System;

namespace Depot
{
    public class Item
    {
        public readonly int Number;
        public readonly string Label;

        public Item(int number, string label)
        {
            Number = number;
            Label = label;
        }

        public override string ToString()
        {
            return Number + " " + Label;
        }
    }

    public class Shelf
    {
        private readonly Item[] items;
        private int used;

        public Shelf(int room)
        {
            items = new Item[room];
        }

        public int Count
        {
            get { return used; }
        }

        public bool Put(Item item)
        {
            if (used == items.Length)
            {
                return false;
            }
            items[used] = item;
            used++;
            return true;
        }

        public Item Find(int number)
        {
            foreach (Item item in items)
            {
                if (item != null && item.Number == number)
                {
                    return item;
                }
            }
            return null;
        }

        public void Clear()
        {
            Array.Clear(items, 0, items.Length);
            used = 0;
        }
    }

    public sealed class Drawer : Shelf, IDisposable
    {
        public string Key;
        public bool Open { get; private set; }

        public Drawer(string key, int room) : base(room)
        {
            Key = key;
        }

        public void Unlock(string key)
        {
            Open = key == Key;
        }

        public void Dispose()
        {
            Open = false;
            Clear();
        }
    }

    public static class Stock
    {
        public const int Most = 4096;
        public static readonly DateTime Since = new DateTime(2001, 2, 3);

        public static long Total(Shelf[] shelves)
        {
            long total = 0;
            foreach (Shelf shelf in shelves)
            {
                total += shelf.Count;
            }
            return total;
        }

        public static double Share(Shelf shelf, float room, out decimal exact)
        {
            exact = (decimal) shelf.Count;
            return shelf.Count / room;
        }
    }
}
