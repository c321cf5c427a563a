/** Each text that people see or hear in the page, in English, German and Arabic. What follows is JSON, which the page's server reads too. In the place of a
 * name in braces stands a value, and of {} an element of the page. A text that counts has a form for each kind of number `n` (Intl.PluralRules).
 * What a member tells stands behind `told`: its English is the member's own. */
export const TEXTS = {
  "language": ["Language", "Sprache", "اللغة"],
  "asBrowser": ["as the browser", "wie der Browser", "كما في المتصفح"],
  "english": ["English", "English", "English"],
  "german": ["Deutsch", "Deutsch", "Deutsch"],
  "arabic": ["العربية", "العربية", "العربية"],

  "keyControl": ["Ctrl", "Strg", "Ctrl"],
  "keyShift": ["Shift", "Umschalt", "Shift"],
  "keyDelete": ["Delete", "Entf", "Delete"],
  "withKeys": ["{text} ({keys})", "{text} ({keys})", "{text} ({keys})"],
  "or": ["{one} or {other}", "{one} oder {other}", "{one} أو {other}"],

  "whiteboard": ["Whiteboard", "Whiteboard", "السبورة"],
  "pages": ["Pages", "Seiten", "الصفحات"],
  "page": ["Page", "Seite", "الصفحة"],
  "pageBefore": ["Page before", "Vorige Seite", "الصفحة السابقة"],
  "nextPage": ["Next page", "Nächste Seite", "الصفحة التالية"],
  "newPage": ["New page", "Neue Seite", "صفحة جديدة"],
  "allPages": ["All pages", "Alle Seiten", "كل الصفحات"],
  "pageNumber": ["Page {number}", "Seite {number}", "الصفحة {number}"],
  "pageHas": [
    { "one": "{page}, {n} drawing", "other": "{page}, {n} drawings" },
    { "one": "{page}, {n} Zeichnung", "other": "{page}, {n} Zeichnungen" },
    { "zero": "{page}، بلا رسوم", "one": "{page}، رسم واحد", "two": "{page}، رسمان", "few": "{page}، {n} رسوم", "many": "{page}، {n} رسمًا", "other": "{page}، {n} رسم" }
  ],

  "tools": ["Tools", "Werkzeuge", "الأدوات"],
  "select": ["Select", "Auswählen", "تحديد"],
  "hand": ["Move the view", "Ansicht verschieben", "تحريك العرض"],
  "handTip": ["Move the view (H, or hold Space)", "Ansicht verschieben (H, oder Leertaste halten)", "تحريك العرض (H، أو اضغط مفتاح المسافة)"],
  "pen": ["Pen", "Stift", "القلم"],
  "marker": ["Highlighter", "Textmarker", "قلم التظليل"],
  "erase": ["Eraser", "Radierer", "الممحاة"],
  "line": ["Line", "Linie", "خط"],
  "arrow": ["Arrow", "Pfeil", "سهم"],
  "frame": ["Rectangle", "Rechteck", "مستطيل"],
  "ellipse": ["Ellipse", "Ellipse", "شكل بيضوي"],
  "diamond": ["Diamond", "Raute", "معيّن"],
  "block": ["Filled frame", "Gefüllter Rahmen", "إطار ممتلئ"],
  "note": ["Note", "Notizzettel", "ملاحظة"],
  "text": ["Text", "Text", "نص"],
  "restore": ["Bring back erased drawings", "Gelöschtes zurückholen", "استرجاع ما مُحي"],
  "toolChosen": ["{tool} chosen", "{tool} gewählt", "الأداة: {tool}"],
  "toolBegun": ["{tool} begun", "{tool} begonnen", "بدأ الرسم: {tool}"],

  "session": ["Session", "Sitzung", "الجلسة"],
  "whoIsHere": ["Who is here", "Wer da ist", "الحاضرون"],
  "side": ["People, chat and network", "Personen, Chat und Netz", "الأشخاص والمحادثة والشبكة"],
  "sideNew": [
    { "one": "People, chat and network: {n} new", "other": "People, chat and network: {n} new" },
    { "one": "Personen, Chat und Netz: {n} neue Nachricht", "other": "Personen, Chat und Netz: {n} neue Nachrichten" },
    {
      "zero": "الأشخاص والمحادثة والشبكة: لا رسائل جديدة", "one": "الأشخاص والمحادثة والشبكة: رسالة جديدة", "two": "الأشخاص والمحادثة والشبكة: رسالتان جديدتان",
      "few": "الأشخاص والمحادثة والشبكة: {n} رسائل جديدة", "many": "الأشخاص والمحادثة والشبكة: {n} رسالة جديدة", "other": "الأشخاص والمحادثة والشبكة: {n} رسالة جديدة"
    }
  ],
  "menu": ["Menu", "Menü", "القائمة"],
  "menuTip": ["Save, print, view", "Speichern, Drucken, Ansicht", "الحفظ والطباعة والعرض"],

  "style": ["Style", "Stil", "النمط"],
  "colourAndWidth": ["Colour and width", "Farbe und Breite", "اللون والسُّمك"],
  "colourAndWidthAre": ["Colour and width: {colour}, {width}", "Farbe und Breite: {colour}, {width}", "اللون والسُّمك: {colour}، {width}"],
  "colour": ["Colour", "Farbe", "اللون"],
  "width": ["Width", "Breite", "السُّمك"],
  "letters": ["Letters", "Schrift", "الحروف"],
  "look": ["Look", "Aussehen", "المظهر"],
  "glyphTip": ["The character that lines are drawn with", "Das Zeichen, mit dem Linien gezeichnet werden", "الرمز الذي تُرسم به الخطوط"],
  "glyph": ["Glyph", "Zeichen", "الرمز"],
  "pressKey": ["Press any key, or choose", "Drücke eine Taste, oder wähle", "اضغط أي مفتاح، أو اختر"],
  "black": ["black", "schwarz", "أسود"],
  "red": ["red", "rot", "أحمر"],
  "orange": ["orange", "orange", "برتقالي"],
  "yellow": ["yellow", "gelb", "أصفر"],
  "green": ["green", "grün", "أخضر"],
  "teal": ["teal", "türkis", "فيروزي"],
  "blue": ["blue", "blau", "أزرق"],
  "violet": ["violet", "violett", "بنفسجي"],
  "grey": ["grey", "grau", "رمادي"],
  "ownColour": ["my own colour", "meine eigene Farbe", "لوني"],
  "fine": ["fine", "fein", "رفيع"],
  "normal": ["normal", "normal", "عادي"],
  "thick": ["thick", "dick", "سميك"],
  "veryThick": ["very thick", "sehr dick", "سميك جدًا"],
  "small": ["small", "klein", "صغير"],
  "middle": ["middle", "mittel", "متوسط"],
  "large": ["large", "groß", "كبير"],
  "veryLarge": ["very large", "sehr groß", "كبير جدًا"],
  "plain": ["plain", "einfach", "عادي"],
  "formula": ["formula", "Formel", "صيغة رياضية"],
  "code": ["code", "Code", "شيفرة"],
  "dashed": ["dashed", "gestrichelt", "متقطع"],
  "filled": ["filled", "hell gefüllt", "تعبئة فاتحة"],
  "full": ["full", "voll gefüllt", "تعبئة كاملة"],
  "twoHeads": ["heads at both ends", "Spitzen an beiden Enden", "رأسان للسهم"],
  "cuts": ["only what it touches", "nur, was er berührt", "ما تلمسه فقط"],
  "thinner": ["thinner where it is fast", "dünner, wo er schnell ist", "أرفع حيث يُسرع القلم"],

  "cratesProved": ["Crates that are proved", "Bewiesene Teile", "الأجزاء المُثبتة"],
  "gone": ["This board has another address now.", "Diese Tafel hat jetzt eine andere Adresse.", "لهذه السبورة عنوان آخر الآن."],
  "goneWhat": ["Ask for it, or scan its code again.", "Frage danach, oder scanne den Code noch einmal.", "اطلب العنوان، أو امسح الرمز من جديد."],
  "goneUnsent": [
    { "one": "{n} drawing of yours was not sent.", "other": "{n} drawings of yours were not sent." },
    { "one": "{n} Zeichnung von dir wurde nicht gesendet.", "other": "{n} Zeichnungen von dir wurden nicht gesendet." },
    {
      "zero": "أُرسلت كل رسومك.", "one": "رسم واحد لك لم يُرسل.", "two": "رسمان لك لم يُرسلا.", "few": "{n} رسوم لك لم تُرسل.", "many": "{n} رسمًا لك لم تُرسل.",
      "other": "{n} رسم لك لم تُرسل."
    }
  ],

  "sheet": ["The sheet", "Das Blatt", "الورقة"],
  "hintTitle": ["Start writing", "Schreib los", "ابدأ الكتابة"],
  "hint": [
    "Draw with the pen, or press {} to type. Everyone here sees it as you write.",
    "Zeichne mit dem Stift, oder drücke {} und tippe. Alle hier sehen es, während du schreibst.",
    "ارسم بالقلم، أو اضغط {} لتكتب بلوحة المفاتيح. يرى كل الحاضرين ما تكتبه وأنت تكتبه."
  ],
  "typing": [
    "Text to draw; Enter draws it, Shift and Enter begin a new line, Escape drops it",
    "Text; die Eingabetaste zeichnet ihn, Umschalt und Eingabe beginnen eine neue Zeile, Escape verwirft ihn",
    "النص؛ مفتاح Enter يرسمه، وShift مع Enter يبدآن سطرًا جديدًا، وEscape يلغيه"
  ],
  "filmRecord": ["The record as a film", "Die Aufzeichnung als Film", "السجل كفيلم"],
  "stop": ["Stop", "Anhalten", "إيقاف"],
  "play": ["Play", "Abspielen", "تشغيل"],
  "speed": ["Speed", "Tempo", "السرعة"],
  "halfSpeed": ["half", "halb", "نصف السرعة"],
  "ownSpeed": ["as it was", "wie es war", "كما كانت"],
  "fourTimes": ["4 times", "4-mal", "4 أضعاف"],
  "twentyTimes": ["20 times", "20-mal", "20 ضعفًا"],
  "filmAt": ["Where the film is", "Stelle im Film", "موضع الفيلم"],
  "filmTold": ["{at} of {last}   {count} of {many}   {what}", "{at} von {last}   {count} von {many}   {what}", "{at} من {last}   {count} من {many}   {what}"],
  "sceneLost": ["{what}, lost at first", "{what}, zuerst verloren", "{what}، ضاع أولًا"],
  "missing": [
    { "one": "{n} missing", "other": "{n} missing" },
    { "one": "{n} fehlt", "other": "{n} fehlen" },
    { "zero": "لا ينقص شيء", "one": "ينقص رسم واحد", "two": "ينقص رسمان", "few": "تنقص {n} رسوم", "many": "ينقص {n} رسمًا", "other": "ينقص {n} رسم" }
  ],

  "chosen": ["What is selected", "Was ausgewählt ist", "ما هو محدد"],
  "delete": ["Delete", "Löschen", "حذف"],
  "duplicate": ["Duplicate", "Verdoppeln", "تكرار"],
  "copy": ["Copy", "Kopieren", "نسخ"],
  "group": ["Group", "Gruppieren", "تجميع"],
  "ungroup": ["Ungroup", "Gruppe auflösen", "فك التجميع"],
  "grouped": ["grouped", "gruppiert", "تم التجميع"],
  "ungrouped": ["ungrouped", "Gruppe aufgelöst", "تم فك التجميع"],
  "oneAlone": ["A group has two drawings or more.", "Eine Gruppe hat mindestens zwei Zeichnungen.", "تتكون المجموعة من رسمين على الأقل."],
  "toFront": ["To the front", "Nach vorn", "إلى الأمام"],
  "toBack": ["To the back", "Nach hinten", "إلى الخلف"],
  "tooManyAnew": ["More than {most} drawings would have to be drawn anew.", "Mehr als {most} Zeichnungen müssten neu gezeichnet werden.", "يجب لذلك رسم أكثر من {most} رسم من جديد."],
  "backToDrawings": ["Back to the drawings", "Zurück zu den Zeichnungen", "العودة إلى الرسوم"],
  "inkPacked": ["Ink stands packed from row {row} on: go there", "Tinte steht gepackt ab Zeile {row}: dorthin", "الحبر محفوظ ابتداءً من السطر {row}: اذهب إليه"],
  "notChanged": ["Nothing that is selected can be changed so.", "Nichts von dem, was ausgewählt ist, lässt sich so ändern.", "لا شيء مما هو محدد يمكن تغييره هكذا."],
  "copied": ["copied", "kopiert", "تم النسخ"],
  "copyByKeys": ["The browser lets only keys copy: Ctrl+C.", "Der Browser kopiert nur mit Tasten: Strg+C.", "لا يسمح المتصفح بالنسخ إلا بالمفاتيح: Ctrl+C."],
  "manyCopied": [
    { "one": "{n} copied", "other": "{n} copied" },
    { "one": "{n} kopiert", "other": "{n} kopiert" },
    { "zero": "لم يُنسخ شيء", "one": "نُسخ رسم واحد", "two": "نُسخ رسمان", "few": "نُسخت {n} رسوم", "many": "نُسخ {n} رسمًا", "other": "نُسخ {n} رسم" }
  ],
  "selected": [
    { "one": "one drawing selected", "other": "{n} drawings selected" },
    { "one": "eine Zeichnung ausgewählt", "other": "{n} Zeichnungen ausgewählt" },
    { "zero": "لا شيء محدد", "one": "رسم واحد محدد", "two": "رسمان محددان", "few": "{n} رسوم محددة", "many": "{n} رسمًا محددًا", "other": "{n} رسم محدد" }
  ],

  "steps": ["Steps", "Schritte", "الخطوات"],
  "undo": ["Undo", "Rückgängig", "تراجع"],
  "redo": ["Redo", "Wiederholen", "إعادة"],
  "size": ["Size", "Größe", "الحجم"],
  "smaller": ["Smaller", "Kleiner", "تصغير"],
  "larger": ["Larger", "Größer", "تكبير"],
  "hundredPerCent": ["100 per cent", "100 Prozent", "100 بالمئة"],
  "showAll": ["Show everything", "Alles zeigen", "عرض الكل"],
  "undoMoot": [
    "What you drew last is erased already. The panel “People” brings it back.",
    "Was du zuletzt gezeichnet hast, ist schon gelöscht. Unter „Personen“ kannst du es zurückholen.",
    "ما رسمته آخر مرة مُحي من قبل. يمكنك استرجاعه من لوحة «الأشخاص»."
  ],
  "nothingToRedo": ["Nothing to restore.", "Es gibt nichts zu wiederholen.", "لا شيء يُعاد."],
  "nothingOfYours": ["Nothing of yours is left on this page.", "Auf dieser Seite ist nichts mehr von dir.", "لم يبق لك شيء في هذه الصفحة."],

  "connecting": ["connecting", "verbinde", "جارٍ الاتصال"],
  "movedAddress": ["This board has another address now", "Diese Tafel hat jetzt eine andere Adresse", "لهذه السبورة عنوان آخر الآن"],
  "offline": ["Offline: what you draw waits here", "Offline: was du zeichnest, wartet hier", "غير متصل: ما ترسمه ينتظر هنا"],
  "offlineWaits": [
    { "one": "Offline: {n} drawing waits here", "other": "Offline: {n} drawings wait here" },
    { "one": "Offline: {n} Zeichnung wartet hier", "other": "Offline: {n} Zeichnungen warten hier" },
    {
      "zero": "غير متصل: لا رسوم تنتظر", "one": "غير متصل: رسم واحد ينتظر", "two": "غير متصل: رسمان ينتظران", "few": "غير متصل: {n} رسوم تنتظر",
      "many": "غير متصل: {n} رسمًا تنتظر", "other": "غير متصل: {n} رسم تنتظر"
    }
  ],
  "boardBack": ["The board is here again", "Die Tafel ist wieder da", "عادت السبورة"],
  "boardFull": ["The board is full", "Die Tafel ist voll", "السبورة ممتلئة"],
  "boardAlmostFull": ["The board is almost full", "Die Tafel ist fast voll", "السبورة شبه ممتلئة"],
  "lookingWho": ["Looking who is here", "Schaue, wer da ist", "البحث عن الحاضرين"],
  "catchingUp": [
    { "one": "Catching up: {n} drawing", "other": "Catching up: {n} drawings" },
    { "one": "Es fehlt noch {n} Zeichnung", "other": "Es fehlen noch {n} Zeichnungen" },
    {
      "zero": "لا ينقص شيء", "one": "جارٍ جلب رسم واحد", "two": "جارٍ جلب رسمين", "few": "جارٍ جلب {n} رسوم", "many": "جارٍ جلب {n} رسمًا", "other": "جارٍ جلب {n} رسم"
    }
  ],
  "notTheSame": ["Not the same for all", "Nicht für alle gleich", "ليست نفسها عند الجميع"],
  "anotherPage": [
    "{page} is not the same at {names}: somebody drew twice under one name. Save it as a picture or a film at both, and go on on a new board.",
    "{page} ist bei {names} eine andere: jemand hat unter einem Namen zweimal gezeichnet. Sichere sie bei beiden als Bild oder Film, und mach auf einer neuen Tafel weiter.",
    "{page} ليست نفسها عند {names}: رسم أحدهم مرتين باسم واحد. احفظها عند الطرفين صورةً أو فيلمًا، وأكمل على سبورة جديدة."
  ],
  "everythingHere": ["Everything is here", "Alles ist da", "كل شيء هنا"],
  "fullNow": ["This board is full.", "Diese Tafel ist voll.", "هذه السبورة ممتلئة."],
  "fullPart": ["This board is {percent} % full.", "Diese Tafel ist zu {percent} % voll.", "امتلأ {percent} % من هذه السبورة."],
  "youGoOn": ["You go on on the board “{board}”.", "Du machst auf der Tafel „{board}“ weiter.", "أنت تُكمل على السبورة «{board}»."],
  "goesOn": ["{who} goes on on the board “{board}”.", "{who} macht auf der Tafel „{board}“ weiter.", "التكملة على السبورة «{board}» ({who})."],
  "goThere": ["Go there", "Dorthin", "اذهب إليها"],
  "goOn": ["Go on on a new board", "Auf einer neuen Tafel weitermachen", "أكمل على سبورة جديدة"],
  "nextByHand": ["Here a next board is begun by hand.", "Die nächste Tafel wird hier von Hand begonnen.", "تُفتح السبورة التالية هنا يدويًا."],
  "nextNotBegun": ["The next board was not begun: {why}", "Die nächste Tafel wurde nicht begonnen: {why}", "لم تُفتح السبورة التالية: {why}"],

  "people": ["People", "Personen", "الأشخاص"],
  "chat": ["Chat", "Chat", "المحادثة"],
  "network": ["Network", "Netz", "الشبكة"],
  "closePanel": ["Close the panel", "Seitenleiste schließen", "إغلاق اللوحة الجانبية"],
  "close": ["Close", "Schließen", "إغلاق"],
  "callAll": ["Everybody to me", "Alle zu mir", "الجميع إليّ"],
  "calledAll": ["Everybody is called to what you see.", "Alle werden zu dem gerufen, was du siehst.", "دُعي الجميع إلى ما تراه."],
  "myName": ["Change my name or colour", "Name oder Farbe ändern", "تغيير اسمي أو لوني"],
  "erasedDrawings": ["Erased drawings", "Gelöschte Zeichnungen", "الرسوم الممحوة"],
  "erasedLately": ["Erased lately", "Zuletzt gelöscht", "مُحي مؤخرًا"],
  "pageAsItWas": ["The page as it was", "Die Seite, wie sie war", "الصفحة كما كانت"],
  "othersClear": ["Others may clear and delete pages", "Andere dürfen Seiten leeren und löschen", "يجوز للآخرين مسح الصفحات وحذفها"],
  "nobodyKeeps": [
    "Nobody can stop others from clearing pages here: each has a host of their own, and no host obeys another.",
    "Hier kann niemand anderen verbieten, Seiten zu leeren: alle haben einen eigenen Host, und kein Host gehorcht einem anderen.",
    "لا أحد يستطيع هنا منع الآخرين من مسح الصفحات: لكل واحد مضيفه، ولا يطيع مضيف مضيفًا آخر."
  ],
  "guest": ["Guest {number}", "Gast {number}", "ضيف {number}"],
  "theBoard": ["The board", "Die Tafel", "السبورة"],
  "keepsBoard": ["keeps what is drawn", "behält, was gezeichnet wird", "تحفظ ما يُرسم"],
  "you": ["you", "du", "أنت"],
  "nameYou": ["{name} (you)", "{name} (du)", "{name} (أنت)"],
  "followName": ["{name}: follow", "{name}: folgen", "{name}: متابعة"],
  "followNameOn": ["{name}, on {page}: follow", "{name}, auf {page}: folgen", "{name}، في {page}: متابعة"],
  "followsYou": ["follows you", "folgt dir", "يتابعك"],
  "follows": ["follows {name}", "folgt {name}", "يتابع {name}"],
  "onPage": ["on {page}", "auf {page}", "في {page}"],
  "whereHolds": ["{where} · {holds}", "{where} · {holds}", "{where} · {holds}"],
  "holdsSame": ["same page", "gleiche Seite", "الصفحة نفسها"],
  "holdsNotYet": ["not yet the same page", "noch nicht die gleiche Seite", "ليست الصفحة نفسها بعد"],
  "holdsAnother": ["another page", "eine andere Seite", "صفحة أخرى"],
  "here": ["here", "hier", "هنا"],
  "heard": ["heard {ago}", "{ago} gehört", "آخر إشارة {ago}"],
  "now": ["now", "gerade", "الآن"],
  "secondsAgo": [
    { "one": "{n} s ago", "other": "{n} s ago" },
    { "one": "vor {n} s", "other": "vor {n} s" },
    { "zero": "الآن", "one": "قبل ثانية", "two": "قبل ثانيتين", "few": "قبل {n} ثوانٍ", "many": "قبل {n} ثانية", "other": "قبل {n} ثانية" }
  ],
  "minutesAgo": [
    { "one": "{n} min ago", "other": "{n} min ago" },
    { "one": "vor {n} min", "other": "vor {n} min" },
    { "zero": "الآن", "one": "قبل دقيقة", "two": "قبل دقيقتين", "few": "قبل {n} دقائق", "many": "قبل {n} دقيقة", "other": "قبل {n} دقيقة" }
  ],
  "memberTip": ["member {member}", "Mitglied {member}", "العضو {member}"],
  "memberAway": ["member {member}, {delay} ms away, heard {ago}", "Mitglied {member}, {delay} ms entfernt, {ago} gehört", "العضو {member}، على بعد {delay} ms، آخر إشارة {ago}"],
  "follow": ["Follow", "Folgen", "متابعة"],
  "isFollowed": ["Following", "Folge ich", "أتابعه"],
  "andMore": [
    { "one": "and {n} more", "other": "and {n} more" },
    { "one": "und {n} weitere Person", "other": "und {n} weitere" },
    { "zero": "ولا أحد غيرهم", "one": "وشخص آخر", "two": "وشخصان آخران", "few": "و{n} أشخاص آخرين", "many": "و{n} شخصًا آخر", "other": "و{n} شخص آخر" }
  ],
  "following": ["Following {name}", "Du folgst {name}", "أنت تتابع {name}"],
  "followingSoon": ["Following {name}, once you are done", "Du folgst {name}, sobald du fertig bist", "ستتابع {name} حين تنتهي"],
  "followingNobody": ["following nobody", "du folgst niemandem", "لا تتابع أحدًا"],
  "unfollow": ["Stop", "Nicht mehr folgen", "إيقاف"],
  "notHere": ["{name} is not here any more.", "{name} ist nicht mehr da.", "{name} لم يعد هنا."],

  "youErased": ["You erased {what}", "Du hast {what} gelöscht", "محوتَ {what}"],
  "erased": ["{who} erased {what}", "{who} hat {what} gelöscht", "{what}: محاه {who}"],
  "youCleared": [
    { "one": "You cleared {n} drawing", "other": "You cleared {n} drawings" },
    { "one": "Du hast {n} Zeichnung gelöscht", "other": "Du hast {n} Zeichnungen gelöscht" },
    { "zero": "لم تمحُ شيئًا", "one": "محوتَ رسمًا", "two": "محوتَ رسمين", "few": "محوتَ {n} رسوم", "many": "محوتَ {n} رسمًا", "other": "محوتَ {n} رسم" }
  ],
  "cleared": [
    { "one": "{who} cleared {n} drawing", "other": "{who} cleared {n} drawings" },
    { "one": "{who} hat {n} Zeichnung gelöscht", "other": "{who} hat {n} Zeichnungen gelöscht" },
    { "zero": "لا رسوم: محاها {who}", "one": "رسم واحد: محاه {who}", "two": "رسمان: محاهما {who}", "few": "{n} رسوم: محاها {who}", "many": "{n} رسمًا: محاها {who}", "other": "{n} رسم: محاها {who}" }
  ],
  "quoted": ["“{letters}”", "„{letters}“", "«{letters}»"],
  "writing": ["writing", "Handschrift", "خط يد"],
  "markerInk": ["highlighter", "eine Markierung", "تظليل"],
  "shape": ["shape", "eine Form", "شكل"],
  "bringBack": ["Bring back", "Zurückholen", "استرجاع"],
  "bringBackWhat": ["Bring back: {what}, {hour}", "Zurückholen: {what}, {hour}", "استرجاع: {what}، {hour}"],
  "broughtBack": [
    { "one": "{n} brought back", "other": "{n} brought back" },
    { "one": "{n} zurückgeholt", "other": "{n} zurückgeholt" },
    { "zero": "لم يُسترجع شيء", "one": "استُرجع رسم واحد", "two": "استُرجع رسمان", "few": "استُرجعت {n} رسوم", "many": "استُرجع {n} رسمًا", "other": "استُرجع {n} رسم" }
  ],
  "at": ["At", "Um", "الساعة"],
  "when": ["When", "Wann", "متى"],
  "bringBackMany": [
    { "one": "Bring back {n} drawing", "other": "Bring back {n} drawings" },
    { "one": "{n} Zeichnung zurückholen", "other": "{n} Zeichnungen zurückholen" },
    { "zero": "لا شيء يُسترجع", "one": "استرجاع رسم واحد", "two": "استرجاع رسمين", "few": "استرجاع {n} رسوم", "many": "استرجاع {n} رسمًا", "other": "استرجاع {n} رسم" }
  ],
  "nothingMissing": ["Nothing is missing since", "Seither fehlt nichts", "لم ينقص شيء منذ ذلك"],

  "saidLog": ["What was said", "Was gesagt wurde", "ما قيل"],
  "saySomething": ["Say something to everyone", "Schreibe allen", "اكتب رسالة للجميع"],
  "send": ["Send", "Senden", "إرسال"],
  "health": ["Health of the page", "Zustand der Seite", "حالة الصفحة"],
  "counts": [
    "sent: requests {requests}, repairs {repairs}; datagrams: {in} in, {out} out{more}",
    "gesendet: Anfragen {requests}, Reparaturen {repairs}; Datagramme: {in} herein, {out} hinaus{more}",
    "أُرسل: الطلبات {requests}، الإصلاحات {repairs}؛ الحزم: {in} واردة، {out} صادرة{more}"
  ],
  "lostOnPurpose": [", {n} lost on purpose", ", {n} absichtlich verloren", "، {n} ضائع عمدًا"],
  "twiceOnPurpose": [", {n} twice on purpose", ", {n} absichtlich doppelt", "، {n} مكرر عمدًا"],
  "manyRefused": [", {n} refused", ", {n} abgelehnt", "، {n} مرفوض"],
  "manyDropped": [", {n} dropped", ", {n} verworfen", "، {n} مُهمل"],
  "manyForeign": [", {n} sealed by no key of ours", ", {n} mit fremdem Schlüssel", "، {n} بمفتاح غريب"],
  "twin": ["Another member has your number.", "Jemand anderes hat deine Nummer.", "عضو آخر له رقمك."],
  "newNumber": ["Take a new number", "Neue Nummer nehmen", "خذ رقمًا جديدًا"],
  "worsen": ["Worsen the network", "Das Netz schlechter machen", "إضعاف الشبكة"],
  "lost": ["lost", "verloren", "ضائع"],
  "delay": ["delay", "verzögert", "تأخير"],
  "twice": ["twice", "doppelt", "مكرر"],
  "mixed": ["mixed", "vertauscht", "مخلوط"],
  "datagrams": ["Datagrams", "Datagramme", "حزم البيانات"],
  "wire": ["The wire", "Die Leitung", "السلك"],
  "whichDatagrams": ["Which datagrams", "Welche Datagramme", "أي الحزم"],
  "all": ["all", "alle", "الكل"],
  "drawingKind": ["drawings", "Zeichnungen", "الرسوم"],
  "repairs": ["repairs", "Reparaturen", "الإصلاحات"],
  "sessions": ["sessions", "Sitzungen", "الجلسات"],
  "pause": ["Pause", "Pause", "إيقاف مؤقت"],
  "lastDatagrams": ["The last datagrams", "Die letzten Datagramme", "آخر الحزم"],
  "refusedWhy": ["refused: {why}", "abgelehnt: {why}", "مرفوض: {why}"],
  "wasLost": ["lost on purpose", "absichtlich verloren", "ضائع عمدًا"],
  "repairedFirst": ["repaired by {who} first, you stay silent", "zuerst repariert von {who}, du schweigst", "أصلحه {who} أولًا، فتصمت أنت"],
  "repaired": ["repaired by {who}", "repariert von {who}", "أصلحه {who}"],
  "repairedFor": ["repaired by {who} for {member}", "repariert von {who} für {member}", "أصلحه {who} لأجل {member}"],
  "onceMore": ["{text}, once more", "{text}, noch einmal", "{text}، مرة أخرى"],
  "wireYou": ["you", "dir", "أنت"],

  "pageAsText": ["The page as text", "Die Seite als Text", "الصفحة كنص"],
  "how": [
    "Arrow keys move. Enter begins a stroke or a shape and ends it, begins a text, erases or restores. Question mark lists the keys.",
    "Pfeiltasten bewegen. Die Eingabetaste beginnt und beendet einen Strich oder eine Form, beginnt einen Text, löscht oder holt zurück. Das Fragezeichen zeigt die Tasten.",
    "مفاتيح الأسهم تحرّك. مفتاح Enter يبدأ خطًا أو شكلًا وينهيه، ويبدأ نصًا، ويمحو أو يسترجع. علامة الاستفهام تعرض المفاتيح."
  ],
  "welcome": ["What is your name?", "Wie heißt du?", "ما اسمك؟"],
  "welcomeWhy": ["Others see it beside your pointer and your drawings.", "Andere sehen ihn neben deinem Zeiger und deinen Zeichnungen.", "يراه الآخرون بجانب مؤشرك ورسومك."],
  "nameLike": ["Anna", "Anna", "سلمى"],
  "yourName": ["Your name", "Dein Name", "اسمك"],
  "yourColour": ["Your colour", "Deine Farbe", "لونك"],
  "start": ["Start", "Los", "ابدأ"],
  "notNow": ["Not now", "Nicht jetzt", "ليس الآن"],

  "keys": ["Keys", "Tasten", "المفاتيح"],
  "keysTools": ["select, move the view, pen, highlighter, eraser", "auswählen, Ansicht verschieben, Stift, Textmarker, Radierer", "تحديد، تحريك العرض، القلم، قلم التظليل، الممحاة"],
  "keysShapes": ["line, arrow, rectangle, ellipse, diamond, note, text", "Linie, Pfeil, Rechteck, Ellipse, Raute, Notizzettel, Text", "خط، سهم، مستطيل، شكل بيضوي، معيّن، ملاحظة، نص"],
  "keysDigits": ["1 to 9", "1 bis 9", "1 إلى 9"],
  "keysColours": ["colours", "Farben", "الألوان"],
  "keysShift": ["Shift", "Umschalt", "Shift"],
  "keysStraight": ["straight lines, circles and squares", "gerade Linien, Kreise und Quadrate", "خطوط مستقيمة ودوائر ومربعات"],
  "keysUndo": ["Ctrl+Z", "Strg+Z", "Ctrl+Z"],
  "keysUndoes": ["undo; Ctrl+Shift+Z does it again", "rückgängig; Strg+Umschalt+Z wiederholt", "تراجع؛ وCtrl+Shift+Z يعيد"],
  "keysClipboard": ["Ctrl+A, C, X, V, D, G", "Strg+A, C, X, V, D, G", "Ctrl+A, C, X, V, D, G"],
  "keysCopies": ["select all, copy, cut, paste, duplicate, group; with Shift ungroup", "alles auswählen, kopieren, ausschneiden, einfügen, verdoppeln, gruppieren; mit Umschalt Gruppe auflösen", "تحديد الكل، نسخ، قص، لصق، تكرار، تجميع؛ ومع Shift فك التجميع"],
  "keysDelete": ["Delete", "Entf", "Delete"],
  "keysDeletes": [
    "delete what is selected; arrows move it a point, with Shift ten",
    "löscht, was ausgewählt ist; Pfeiltasten bewegen es um einen Punkt, mit Umschalt um zehn",
    "حذف المحدد؛ والأسهم تحركه نقطة، ومع Shift عشرًا"
  ],
  "keysPages": ["page before, next page, all pages", "vorige Seite, nächste Seite, alle Seiten", "الصفحة السابقة، الصفحة التالية، كل الصفحات"],
  "keysSize": ["+ - 0 Home", "+ - 0 Pos1", "+ - 0 Home"],
  "keysSizes": [
    "larger, smaller, show everything; Ctrl and the wheel at the pointer",
    "größer, kleiner, alles zeigen; Strg und das Mausrad beim Zeiger",
    "تكبير، تصغير، عرض الكل؛ وCtrl مع عجلة الفأرة عند المؤشر"
  ],
  "keysSpace": ["Space, wheel", "Leertaste, Mausrad", "المسافة، العجلة"],
  "keysDrag": ["drag with Space held, or turn the wheel, to see elsewhere", "mit gehaltener Leertaste ziehen oder das Mausrad drehen, um anderes zu sehen", "اسحب مع ضغط المسافة، أو أدر العجلة، لترى موضعًا آخر"],
  "keysArrows": ["Arrows, Enter", "Pfeile, Eingabe", "الأسهم، Enter"],
  "keysCursor": ["move a cursor on the sheet, begin and let go there", "bewegen eine Marke auf dem Blatt, beginnen und beenden dort", "تحريك علامة على الورقة، والبدء والإنهاء هناك"],
  "keysEscape": ["Escape", "Escape", "Escape"],
  "keysDrop": ["drop what is begun, or the selection", "verwirft, was begonnen ist, oder die Auswahl", "إلغاء ما بدأ، أو التحديد"],
  "keysLook": [
    "ink, or the characters that the page is proved to show; there F is a frame, B a filled one, G the character and R restores",
    "Tinte, oder die Zeichen, die bewiesen sind; dort ist F ein Rahmen, B ein gefüllter, G das Zeichen, und R holt zurück",
    "الحبر، أو الرموز التي ثبت عرضها؛ هناك F إطار، وB إطار ممتلئ، وG الرمز، وR يسترجع"
  ],
  "singleLetters": ["Single letters are keys while the sheet has the focus", "Einzelne Buchstaben sind Tasten, solange das Blatt den Fokus hat", "الحروف المفردة مفاتيح ما دام التركيز على الورقة"],
  "othersSee": ["Others see where I point, and what I have begun", "Andere sehen, wohin ich zeige und was ich begonnen habe", "يرى الآخرون أين أشير وما بدأتُه"],
  "nothingLost": [
    "A delete hides; nothing is ever taken back from others. Everything that is drawn stays in the record of the session.",
    "Löschen verbirgt nur; anderen wird nie etwas genommen. Alles, was gezeichnet wird, bleibt in der Aufzeichnung der Sitzung.",
    "الحذف إخفاء فقط؛ ولا يُؤخذ شيء من الآخرين. كل ما يُرسم يبقى في سجل الجلسة."
  ],
  "youAre": ["{notice} You are member {me}; {mode}.", "{notice} Du bist Mitglied {me}; {mode}.", "{notice} أنت العضو {me}؛ {mode}."],

  "thisPage": ["This page", "Diese Seite", "هذه الصفحة"],
  "entitle": ["Give it a title", "Titel geben", "إعطاء عنوان"],
  "titleOfPage": ["The title of this page", "Der Titel dieser Seite", "عنوان هذه الصفحة"],
  "copyPage": ["Copy the page", "Seite kopieren", "نسخ الصفحة"],
  "clearPage": ["Clear the page", "Seite leeren", "مسح الصفحة"],
  "deletePage": ["Delete the page", "Seite löschen", "حذف الصفحة"],
  "paper": ["Paper", "Papier", "الورق"],
  "paperDots": ["with dots", "mit Punkten", "منقّط"],
  "paperSquares": ["squared", "kariert", "بمربعات"],
  "paperLines": ["lined", "liniert", "مسطّر"],
  "paperNone": ["plain", "blanko", "بلا خطوط"],
  "copyOf": ["{title} (copy)", "{title} (Kopie)", "{title} (نسخة)"],
  "askClear": [
    { "one": "Clear the page for everyone? It takes {n} drawing of room; Undo brings all back.", "other": "Clear the page for everyone? It takes {n} drawings of room; Undo brings all back." },
    { "one": "Die Seite für alle leeren? Das braucht Platz für {n} Zeichnung; Rückgängig holt alles zurück.", "other": "Die Seite für alle leeren? Das braucht Platz für {n} Zeichnungen; Rückgängig holt alles zurück." },
    {
      "zero": "هل تُمسح الصفحة للجميع؟", "one": "هل تُمسح الصفحة للجميع؟ يأخذ ذلك مكان رسم واحد؛ والتراجع يسترجع الكل.", "two": "هل تُمسح الصفحة للجميع؟ يأخذ ذلك مكان رسمين؛ والتراجع يسترجع الكل.",
      "few": "هل تُمسح الصفحة للجميع؟ يأخذ ذلك مكان {n} رسوم؛ والتراجع يسترجع الكل.", "many": "هل تُمسح الصفحة للجميع؟ يأخذ ذلك مكان {n} رسمًا؛ والتراجع يسترجع الكل.",
      "other": "هل تُمسح الصفحة للجميع؟ يأخذ ذلك مكان {n} رسم؛ والتراجع يسترجع الكل."
    }
  ],
  "askDelete": [
    { "one": "Delete {page} for everyone? It takes {n} drawing of room. It can be brought back under “All pages”.", "other": "Delete {page} for everyone? It takes {n} drawings of room. It can be brought back under “All pages”." },
    { "one": "{page} für alle löschen? Das braucht Platz für {n} Zeichnung. Unter „Alle Seiten“ lässt sie sich zurückholen.", "other": "{page} für alle löschen? Das braucht Platz für {n} Zeichnungen. Unter „Alle Seiten“ lässt sie sich zurückholen." },
    {
      "zero": "هل تُحذف {page} للجميع؟ يمكن استرجاعها من «كل الصفحات».", "one": "هل تُحذف {page} للجميع؟ يأخذ ذلك مكان رسم واحد. يمكن استرجاعها من «كل الصفحات».",
      "two": "هل تُحذف {page} للجميع؟ يأخذ ذلك مكان رسمين. يمكن استرجاعها من «كل الصفحات».", "few": "هل تُحذف {page} للجميع؟ يأخذ ذلك مكان {n} رسوم. يمكن استرجاعها من «كل الصفحات».",
      "many": "هل تُحذف {page} للجميع؟ يأخذ ذلك مكان {n} رسمًا. يمكن استرجاعها من «كل الصفحات».", "other": "هل تُحذف {page} للجميع؟ يأخذ ذلك مكان {n} رسم. يمكن استرجاعها من «كل الصفحات»."
    }
  ],
  "view": ["View", "Ansicht", "العرض"],
  "ink": ["Ink", "Tinte", "الحبر"],
  "characters": ["Characters, as proved", "Zeichen, wie bewiesen", "الرموز، كما أُثبتت"],
  "light": ["Light", "Helligkeit", "الإضاءة"],
  "asSystem": ["as the system", "wie das System", "كما في النظام"],
  "lightScheme": ["light", "hell", "فاتح"],
  "darkScheme": ["dark", "dunkel", "داكن"],
  "help": ["Keys and help", "Tasten und Hilfe", "المفاتيح والمساعدة"],
  "saveAndPrint": ["Save and print", "Speichern und drucken", "الحفظ والطباعة"],
  "print": ["Print, or PDF", "Drucken, oder PDF", "طباعة، أو PDF"],
  "printAll": ["Print all pages", "Alle Seiten drucken", "طباعة كل الصفحات"],
  "savePng": ["Picture (PNG)", "Bild (PNG)", "صورة (PNG)"],
  "saveSvg": ["SVG", "SVG", "SVG"],
  "saveHtml": ["All pages (HTML)", "Alle Seiten (HTML)", "كل الصفحات (HTML)"],
  "saveRecord": ["The record", "Die Aufzeichnung", "السجل"],
  "openText": ["Open a text", "Einen Text öffnen", "فتح نص"],
  "aText": ["A text", "Ein Text", "نص"],
  "keep": ["Keep", "Behalten", "حفظ"],
  "drop": ["Drop", "Verwerfen", "إلغاء"],
  "earlier": ["Earlier", "Nach vorn", "تقديم"],
  "later": ["Later", "Nach hinten", "تأخير"],
  "deedOf": ["{deed}: {title}", "{deed}: {title}", "{deed}: {title}"],
  "aPage": ["A page", "Eine Seite", "صفحة"],
  "pageDeleted": ["{title}, deleted", "{title}, gelöscht", "{title}، محذوفة"],
  "pageDeletedBy": ["{title}, deleted by {who}", "{title}, gelöscht von {who}", "{title}، حذفها {who}"],
  "pageDeletedByYou": ["{title}, deleted by you", "{title}, gelöscht von dir", "{title}، حذفتَها"],
  "pngTooLarge": ["The page is too large for one PNG: save it as SVG.", "Die Seite ist zu groß für ein PNG: speichere sie als SVG.", "الصفحة أكبر من أن تكون PNG واحدة: احفظها SVG."],
  "noRecord": ["There is no record to save.", "Es gibt keine Aufzeichnung zu speichern.", "لا يوجد سجل للحفظ."],
  "textTooLarge": ["A text of over {most} kilobytes is not opened.", "Ein Text von über {most} Kilobyte wird nicht geöffnet.", "لا يُفتح نص أكبر من {most} كيلوبايت."],
  "noPictures": ["A page has no pictures: strokes, shapes and letters only.", "Eine Seite hat keine Bilder: nur Striche, Formen und Buchstaben.", "لا صور في الصفحة: خطوط وأشكال وحروف فقط."],
  "pagesOfBoard": [
    { "one": "{n} page of a board", "other": "{n} pages of a board" },
    { "one": "{n} Seite einer Tafel", "other": "{n} Seiten einer Tafel" },
    { "zero": "سبورة بلا صفحات", "one": "صفحة من سبورة", "two": "صفحتان من سبورة", "few": "{n} صفحات من سبورة", "many": "{n} صفحة من سبورة", "other": "{n} صفحة من سبورة" }
  ],

  "notDrawn": ["Not drawn: {why}", "Nicht gezeichnet: {why}", "لم يُرسم: {why}"],
  "notTold": ["Not told: {why}", "Nicht gesendet: {why}", "لم يُرسل: {why}"],
  "notTurned": ["The page was not turned: {why}", "Die Seite wurde nicht gewechselt: {why}", "لم تُفتح الصفحة: {why}"],
  "tooMany": ["Not drawn: over {most} drawings at once.", "Nicht gezeichnet: über {most} Zeichnungen auf einmal.", "لم يُرسم: أكثر من {most} رسم دفعة واحدة."],
  "noText": ["There is no text to draw.", "Es gibt keinen Text zu zeichnen.", "لا يوجد نص للرسم."],
  "drawnWithout": [
    "Drawn without {letters}: a text has letters, digits and signs of ASCII only.",
    "Gezeichnet ohne {letters}: ein Text hat nur Buchstaben, Ziffern und Zeichen von ASCII.",
    "رُسم بلا {letters}: في النص حروف ASCII وأرقامها وعلاماتها فقط."
  ],
  "cannotDraw": [
    "{letters} cannot be drawn: a text of cells has letters, digits and signs of ASCII only.",
    "{letters} lässt sich nicht zeichnen: ein Text aus Zellen hat nur Buchstaben, Ziffern und Zeichen von ASCII.",
    "لا يمكن رسم {letters}: في نص الخانات حروف ASCII وأرقامها وعلاماتها فقط."
  ],
  "pageEnds": ["The page ends here: what goes over its edge is not drawn.", "Hier endet die Seite: was über ihren Rand geht, wird nicht gezeichnet.", "تنتهي الصفحة هنا: ما يتجاوز حافتها لا يُرسم."],
  "canBeDrawn": ["This is what can be drawn. Enter draws it.", "Das lässt sich zeichnen. Die Eingabetaste zeichnet es.", "هذا ما يمكن رسمه. مفتاح Enter يرسمه."],

  "drewText": ["{who} drew a text: {what}", "{who} hat Text gezeichnet: {what}", "نص جديد من {who}: {what}"],
  "drewKind": ["{who} drew a {what}", "{who} hat gezeichnet: {what}", "رسم جديد من {who}: {what}"],
  "drewAt": ["{who} drew a {what} at {place}", "{who} hat gezeichnet: {what} bei {place}", "رسم جديد من {who}: {what} عند {place}"],
  "opLine": ["line", "Linie", "خط"],
  "opFrame": ["frame", "Rahmen", "إطار"],
  "opText": ["text", "Text", "نص"],
  "by": ["{what} by {who}", "{what} von {who}", "{what} ({who})"],
  "byWhen": ["{what} by {who}, number {number}, {time}", "{what} von {who}, Nummer {number}, {time}", "{what} ({who})، رقم {number}، {time}"],
  "whoWhen": ["{who}, {time}", "{who}, {time}", "{who}، {time}"],
  "timeIs": ["time {time}", "Zeit {time}", "الوقت {time}"],
  "sizeOf": ["{wide} by {high}", "{wide} mal {high}", "{wide} × {high}"],
  "came": [
    { "one": "{n} drawing came", "other": "{n} drawings came" },
    { "one": "{n} Zeichnung ist gekommen", "other": "{n} Zeichnungen sind gekommen" },
    { "zero": "لا رسوم جديدة", "one": "وصل رسم واحد", "two": "وصل رسمان", "few": "وصلت {n} رسوم", "many": "وصل {n} رسمًا", "other": "وصل {n} رسم" }
  ],
  "wereErased": [
    { "one": "a drawing was erased", "other": "{n} drawings were erased" },
    { "one": "eine Zeichnung wurde gelöscht", "other": "{n} Zeichnungen wurden gelöscht" },
    { "zero": "لم يُمحَ شيء", "one": "مُحي رسم واحد", "two": "مُحي رسمان", "few": "مُحيت {n} رسوم", "many": "مُحي {n} رسمًا", "other": "مُحي {n} رسم" }
  ],

  "inviteOthers": ["Invite others", "Andere einladen", "دعوة آخرين"],
  "addressCode": ["The address as a QR code", "Die Adresse als QR-Code", "العنوان كرمز QR"],
  "addressForOthers": ["The address for others", "Die Adresse für andere", "العنوان للآخرين"],
  "hereOnly": [
    "Only this computer reaches this address. Start wb-live with --web 0.0.0.0:8050, so that others do.",
    "Nur dieser Computer erreicht diese Adresse. Starte wb-live mit --web 0.0.0.0:8050, damit andere sie auch erreichen.",
    "لا يصل إلى هذا العنوان إلا هذا الحاسوب. شغّل wb-live مع \u2066--web 0.0.0.0:8050\u2069 ليصل إليه الآخرون أيضًا."
  ],
  "drawTogether": ["Draw with others", "Mit anderen zeichnen", "الرسم مع آخرين"],
  "tabsOnly": [
    "This session is the tabs of this browser, and nothing leaves it. To draw with people elsewhere, a broker has to carry the session: any of MQTT that browsers reach, by an address that begins with wss://. Ask whoever keeps one for you.",
    "Diese Sitzung besteht aus den Tabs dieses Browsers, und nichts verlässt ihn. Um mit Leuten anderswo zu zeichnen, muss ein Broker die Sitzung tragen: irgendeiner für MQTT, den Browser erreichen, mit einer Adresse, die mit wss:// beginnt. Frage, wer einen für dich betreibt.",
    "هذه الجلسة هي ألسنة هذا المتصفح، ولا يخرج منه شيء. للرسم مع أشخاص في مكان آخر يجب أن يحمل الجلسةَ وسيطُ MQTT تصله المتصفحات، بعنوان يبدأ بـ \u2066wss://\u2069. اسأل من يدير وسيطًا لك."
  ],
  "sendThisLine": [
    "Send this line to those with whom you want to draw. Whoever has it can read and draw, under any number: members who share a key can’t be told apart by it. The broker sees who is there and when something is sent, and not what.",
    "Schicke diese Zeile denen, mit denen du zeichnen willst. Wer sie hat, kann lesen und zeichnen, unter jeder Nummer: Mitglieder mit demselben Schlüssel lassen sich an ihm nicht unterscheiden. Der Broker sieht, wer da ist und wann etwas gesendet wird, aber nicht was.",
    "أرسل هذا السطر إلى من تريد الرسم معهم. من يملكه يقرأ ويرسم بأي رقم: لا يُفرَّق بين أعضاء لهم المفتاح نفسه. يرى الوسيط من الحاضر ومتى يُرسل شيء، ولا يرى ما يُرسل."
  ],
  "broker": ["Broker", "Broker", "الوسيط"],
  "beginThere": ["Begin a session there", "Dort eine Sitzung beginnen", "بدء جلسة هناك"],
  "invitation": ["Invitation", "Einladung", "الدعوة"],
  "share": ["Share", "Teilen", "مشاركة"],
  "noKey": ["This session has no key: the broker, and all who reach it, can read and draw.", "Diese Sitzung hat keinen Schlüssel: der Broker, und alle, die ihn erreichen, können lesen und zeichnen.", "لا مفتاح لهذه الجلسة: يستطيع الوسيط وكل من يصل إليه القراءة والرسم."],
  "copiedLine": ["Copied.", "Kopiert.", "تم النسخ."],
  "whatIsKept": ["What is kept", "Was behalten wird", "ما يُحفظ"],
  "keptHere": [
    "This browser keeps a record of what was drawn, so that a reload, or a start without a network, shows the board again. Others have their own. The menu gives it as a file: The record.",
    "Dieser Browser behält eine Aufzeichnung von dem, was gezeichnet wurde. Beim Neuladen, oder beim Start ohne Netz, ist die Tafel wieder da. Andere haben ihre eigene. Das Menü gibt sie als Datei: Die Aufzeichnung.",
    "يحفظ هذا المتصفح سجلًا لما رُسم، فتعود السبورة بعد إعادة التحميل أو عند البدء بلا شبكة. وللآخرين سجلاتهم. تعطيه القائمة كملف: السجل."
  ],
  "whatIsProved": ["What is proved", "Was bewiesen ist", "ما هو مُثبت"],
  "provedHere": [
    "Proved: that the library keeps one growing history, and that whoever holds the same drawings shows the same page. Here it runs as a module for browsers. Trusted beside the proof: the compiler’s other half that made the module, Binaryen where the browser needs it, a small heap in C, the scripts of this page and the browser itself.",
    "Bewiesen: dass die Bibliothek eine wachsende Geschichte behält, und dass alle, die dieselben Zeichnungen haben, dieselbe Seite zeigen. Hier läuft sie als Modul für Browser. Neben dem Beweis vertraut man: dem anderen Teil des Compilers, der das Modul machte, Binaryen, wenn der Browser es braucht, einem kleinen Heap in C, den Skripten dieser Seite und dem Browser selbst.",
    "المُثبت: أن المكتبة تحفظ تاريخًا واحدًا ينمو، وأن كل من لديه الرسوم نفسها يعرض الصفحة نفسها. وهي تعمل هنا وحدةً للمتصفحات. ويُعتمد مع البرهان على: الجزء الآخر من المترجم الذي صنع الوحدة، وBinaryen حين يحتاجه المتصفح، وذاكرة صغيرة بلغة C، ونصوص هذه الصفحة البرمجية، والمتصفح نفسه."
  ],
  "builtFrom": ["Built from the sources {sources} by {toolchain} and {binaryen}. {modules}.", "Gebaut aus den Quellen {sources} mit {toolchain} und {binaryen}. {modules}.", "بُنيت من المصادر {sources} بواسطة {toolchain} و{binaryen}. {modules}."],
  "runsModule": ["This browser runs {module}.", "Dieser Browser verwendet {module}.", "يشغّل هذا المتصفح {module}."],
  "noBroker": ["No broker: {why}", "Kein Broker: {why}", "لا وسيط: {why}"],
  "noInvitation": ["This address is no invitation: {why}", "Diese Adresse ist keine Einladung: {why}", "هذا العنوان ليس دعوة: {why}"],
  "stopped": ["stopped: {why}", "angehalten: {why}", "توقفت: {why}"],
  "boardStopped": ["The board has stopped: {why}", "Die Tafel ist stehen geblieben: {why}", "توقفت السبورة: {why}"],
  "noticeOfPage": [
    "The board is kept by the proved library of a host, compiled another way than it was proved for: for browsers. This page, its network and its clock are not proved. Members are not authenticated: whoever has the invitation can draw, under any number.",
    "Die Tafel hält die bewiesene Bibliothek eines Hosts, anders übersetzt, als sie bewiesen ist: für Browser. Diese Seite, ihr Netz und ihre Uhr sind nicht bewiesen. Mitglieder weisen sich nicht aus: wer die Einladung hat, kann zeichnen, unter jeder Nummer.",
    "تحفظ السبورةَ مكتبةٌ مُثبتة مترجمة بطريقة غير التي أُثبتت لها: للمتصفحات. هذه الصفحة وشبكتها وساعتها غير مُثبتة. لا يُتحقق من الأعضاء: من لديه الدعوة يستطيع الرسم بأي رقم."
  ],

  "refused403": ["This is not the address of a board", "Das ist nicht die Adresse einer Tafel", "هذا ليس عنوان سبورة"],
  "refused403What": [
    "Open the address that wb-live printed last, or scan its code again. Ask whoever began the board for it.",
    "Öffne die Adresse, die wb-live zuletzt gezeigt hat, oder scanne ihren Code noch einmal. Frage, wer die Tafel begonnen hat.",
    "افتح آخر عنوان أظهره wb-live، أو امسح رمزه من جديد. اسأل من بدأ السبورة عنه."
  ],
  "refused404": ["There is no such page", "Diese Seite gibt es nicht", "لا توجد هذه الصفحة"],
  "refused404What": ["Open the address that wb-live printed, as it is.", "Öffne die Adresse, die wb-live gezeigt hat, so wie sie ist.", "افتح العنوان الذي أظهره wb-live كما هو."],
  "refused503": ["There is no room just now", "Gerade ist kein Platz", "لا مكان الآن"],
  "refused503What": ["Open the page once more in a minute.", "Öffne die Seite in einer Minute noch einmal.", "افتح الصفحة مرة أخرى بعد دقيقة."],
  "refusedElse": ["The board can't be shown", "Die Tafel lässt sich nicht zeigen", "لا يمكن عرض السبورة"],
  "refusedElseWhat": ["Open the address that wb-live printed once more.", "Öffne die Adresse, die wb-live gezeigt hat, noch einmal.", "افتح العنوان الذي أظهره wb-live مرة أخرى."],

  "toldWhole": ["whole", "vollständig", "كاملة"],
  "toldWholeAlone": ["whole; nobody else is heard", "vollständig; sonst ist niemand zu hören", "كاملة؛ ولا يُسمع أحد غيرك"],
  "toldMissing": ["{n} missing", "{n} fehlen", "الناقص: {n}"],
  "toldCaughtUp": ["caught up {n} s ago", "vor {n} s aufgeholt", "اكتملت قبل {n} ث"],
  "toldListening": ["listening before it draws", "hört zu, bevor es zeichnet", "الاستماع قبل الرسم"],
  "toldNoAnswer": ["wb-live does not answer", "wb-live antwortet nicht", "لا يجيب wb-live"],
  "toldMoved": ["wb-live has another address now", "wb-live hat jetzt eine andere Adresse", "لـ wb-live عنوان آخر الآن"],
  "toldBrokerSilent": ["the broker does not answer", "der Broker antwortet nicht", "الوسيط لا يجيب"],
  "toldToBroker": ["connecting to the broker", "verbinde mit dem Broker", "جارٍ الاتصال بالوسيط"],
  "toldRefusedBy": ["refused by the broker: {why}", "vom Broker abgelehnt: {why}", "رفض الوسيط: {why}"],
  "toldOldBroker": ["it knows no MQTT 3.1.1", "er kennt kein MQTT 3.1.1", "لا يعرف MQTT 3.1.1"],
  "toldNoSuchName": ["it does not take this name", "er nimmt diesen Namen nicht", "لا يقبل هذا الاسم"],
  "toldNotAvailable": ["it is not available", "er ist nicht verfügbar", "غير متاح"],
  "toldWrongPassword": ["the name or the password is wrong", "der Name oder das Passwort ist falsch", "الاسم أو كلمة المرور خطأ"],
  "toldNotAllowed": ["it does not allow it", "er erlaubt es nicht", "لا يسمح بذلك"],
  "toldNotHear": ["it does not let us hear this session", "er lässt uns diese Sitzung nicht hören", "لا يسمح لنا بسماع هذه الجلسة"],
  "toldBrokerOf": ["the broker {host} does not answer", "der Broker {host} antwortet nicht", "الوسيط {host} لا يجيب"],
  "toldBrokerWhy": ["the broker {host} does not answer: {why}", "der Broker {host} antwortet nicht: {why}", "الوسيط {host} لا يجيب: {why}"],
  "toldBrokerRefuses": ["the broker {host} refuses: {why}", "der Broker {host} lehnt ab: {why}", "الوسيط {host} يرفض: {why}"],

  "toldNotice": [
    "Everything shown here came through wb host, which is proved; live/ (network, clock, screen) is not proved.",
    "Alles, was hier zu sehen ist, kam durch wb host, der bewiesen ist; live/ (Netz, Uhr, Bildschirm) ist nicht bewiesen.",
    "كل ما يُعرض هنا مرّ عبر wb host، وهو مُثبت؛ أما \u2066live/\u2069 (الشبكة والساعة والشاشة) فغير مُثبت."
  ],
  "toldNoticeNamed": [
    "Everything shown here came through wb host, the program that WB_PROGRAM names; live/ (network, clock, screen) is not proved.",
    "Alles, was hier zu sehen ist, kam durch wb host, das Programm, das WB_PROGRAM nennt; live/ (Netz, Uhr, Bildschirm) ist nicht bewiesen.",
    "كل ما يُعرض هنا مرّ عبر wb host، البرنامج الذي يسميه WB_PROGRAM؛ أما \u2066live/\u2069 (الشبكة والساعة والشاشة) فغير مُثبت."
  ],
  "toldUnproved": [
    "NOT PROVED YET: this board runs by a build that is checked while it runs. The proof goes on beside it; when it is done, this member changes over to the proved program.",
    "NOCH NICHT BEWIESEN: diese Tafel läuft mit einem Programm, das beim Laufen geprüft wird. Der Beweis läuft daneben; ist er fertig, wechselt dieses Mitglied zum bewiesenen Programm.",
    "غير مُثبت بعد: تعمل هذه السبورة ببرنامج يُفحص أثناء تشغيله. البرهان مستمر بجانبه؛ وحين يكتمل ينتقل هذا العضو إلى البرنامج المُثبت."
  ],
  "toldUnprovedAlone": [
    "NOT PROVED YET: this board runs by a build that is checked while it runs. ./wb --where proves the program.",
    "NOCH NICHT BEWIESEN: diese Tafel läuft mit einem Programm, das beim Laufen geprüft wird. ./wb --where beweist das Programm.",
    "غير مُثبت بعد: تعمل هذه السبورة ببرنامج يُفحص أثناء تشغيله. الأمر \u2066./wb --where\u2069 يُثبت البرنامج."
  ],
  "toldNotProved": [
    "NOT PROVED: {why}. This board goes on by a build that is checked while it runs.",
    "NICHT BEWIESEN: {why}. Diese Tafel läuft weiter mit einem Programm, das beim Laufen geprüft wird.",
    "غير مُثبت: {why}. تواصل هذه السبورة ببرنامج يُفحص أثناء تشغيله."
  ],
  "toldProvedNow": [
    "The program is proved now, and this member has changed over to it from its record.",
    "Das Programm ist jetzt bewiesen, und dieses Mitglied ist mit seiner Aufzeichnung dazu gewechselt.",
    "البرنامج مُثبت الآن، وانتقل إليه هذا العضو من سجله."
  ],
  "toldProgress": ["{done} of {many} crates proved, {minutes} min", "{done} von {many} Teilen bewiesen, {minutes} min", "أُثبت {done} من {many} جزءًا، {minutes} د"],
  "toldProgressAt": ["{done} of {many} crates proved, {minutes} min: {at}", "{done} von {many} Teilen bewiesen, {minutes} min: {at}", "أُثبت {done} من {many} جزءًا، {minutes} د: {at}"],

  "toldOnPorts": ["this machine, port {port} of {first} to {last}", "dieser Rechner, Port {port} von {first} bis {last}", "هذا الجهاز، المنفذ {port} من {first} إلى {last}"],
  "toldAlone": ["a class of its own", "eine Klasse für sich", "صف قائم بذاته"],
  "toldInGroup": ["the group {group}", "die Gruppe {group}", "المجموعة {group}"],
  "toldWithPeers": ["{address}, with {n} peers", "{address}, andere: {n}", "{address}، مع غيره: {n}"],
  "toldBrokerSays": ["the broker {host} has no certificate that is taken: {why}", "der Broker {host} hat kein gültiges Zertifikat: {why}", "شهادة الوسيط {host} غير مقبولة: {why}"],
  "toldBrokerTls": ["the broker {host} does not speak TLS there: {why}", "der Broker {host} spricht dort kein TLS: {why}", "الوسيط {host} لا يتكلم TLS هناك: {why}"],
  "toldOnBrokerAs": ["the broker {host}, session {name}, as {user}", "der Broker {host}, Sitzung {name}, als {user}", "الوسيط {host}، الجلسة {name}، باسم {user}"],
  "toldOnBroker": ["the broker {host}, session {name}", "der Broker {host}, Sitzung {name}", "الوسيط {host}، الجلسة {name}"],
  "toldInTabs": ["the tabs of this browser, session {name}", "die Tabs dieses Browsers, Sitzung {name}", "ألسنة هذا المتصفح، الجلسة {name}"],
  "toldSealed": ["{where}, sealed by a key", "{where}, versiegelt mit einem Schlüssel", "{where}، مختومة بمفتاح"],
  "toldTagged": ["{where}, tagged by a key", "{where}, mit einem Schlüssel gekennzeichnet", "{where}، موسومة بمفتاح"],
  "toldTaggedHere": ["{where}, tagged by the key of the invitation", "{where}, gekennzeichnet mit dem Schlüssel der Einladung", "{where}، موسومة بمفتاح الدعوة"],
  "toldSealedHere": ["{where}, sealed by the key of the invitation", "{where}, versiegelt mit dem Schlüssel der Einladung", "{where}، مختومة بمفتاح الدعوة"],

  "toldBusy": ["busy", "gerade beschäftigt", "مشغول"],
  "toldBusyWhy": ["busy ({why})", "gerade beschäftigt ({why})", "مشغول ({why})"],
  "toldEnded": ["ended", "beendet", "انتهى"],
  "toldFull": ["full", "die Tafel ist voll", "السبورة ممتلئة"],
  "toldUnknown": ["unknown", "unbekannt", "غير معروف"],
  "toldTwin": ["another member has our number: take a new one", "jemand anderes hat unsere Nummer: nimm eine neue", "عضو آخر له رقمنا: خذ رقمًا جديدًا"],
  "toldNoNumber": ["no new number", "keine neue Nummer", "لا رقم جديد"],
  "toldNoNumberWhy": ["no new number: {why}", "keine neue Nummer: {why}", "لا رقم جديد: {why}"],
  "toldUntilRoom": ["{why}: nothing is drawn until there is room", "{why}: bis Platz ist, wird nichts gezeichnet", "{why}: لا يُرسم شيء حتى يوجد مكان"],
  "toldNotWritten": ["the record can't be written", "die Aufzeichnung lässt sich nicht schreiben", "لا يمكن كتابة السجل"],
  "toldNotWrittenWhy": ["the record can't be written ({why})", "die Aufzeichnung lässt sich nicht schreiben ({why})", "لا يمكن كتابة السجل ({why})"],
  "toldItsNotWritten": ["its record can't be written ({why})", "seine Aufzeichnung lässt sich nicht schreiben ({why})", "لا يمكن كتابة سجله ({why})"],
  "toldNoStart": ["a member can't be started here now", "hier lässt sich gerade kein Mitglied starten", "لا يمكن تشغيل عضو هنا الآن"],
  "toldBusyBoard": ["the board is busy: open the page anew", "die Tafel ist beschäftigt: öffne die Seite neu", "السبورة مشغولة: افتح الصفحة من جديد"],
  "toldNoSession": ["no name of a session", "kein Name einer Sitzung", "ليس اسم جلسة"],
  "toldNothingOurs": ["nothing of ours is shown", "von uns ist nichts zu sehen", "لا شيء لنا معروض"],
  "toldNoPoint": ["no point", "kein Punkt", "ليست نقطة"],
  "toldNoHost": ["there is no host", "es gibt keinen Host", "لا يوجد مضيف"],
  "toldHostRefuses": ["no host can have this board: {board} ({why})", "kein Host kann diese Tafel haben: {board} ({why})", "لا مضيف لهذه السبورة: {board} ({why})"],
  "toldLineRefused": ["no host takes a line of the record ({why}): {line}", "kein Host nimmt eine Zeile der Aufzeichnung ({why}): {line}", "لا يقبل أي مضيف سطرًا من السجل ({why}): {line}"],
  "toldDatabase": ["the database broke off", "die Datenbank brach ab", "انقطعت قاعدة البيانات"],
  "toldPacketKind": ["a packet of a kind that no broker sends", "ein Paket, wie es kein Broker sendet", "رسالة لا يرسلها وسيط"],
  "toldPacketLong": ["a packet that is too long", "ein zu langes Paket", "رسالة أطول مما يجوز"],
  "toldPacketText": ["a text", "ein Text", "نص"],
  "toldPacketTopic": ["a topic that is cut off", "ein abgeschnittenes Thema", "عنوان مقطوع"],
  "toldNeedsKey": ["open the address that wb-live printed, which has its key", "öffne die Adresse, die wb-live gezeigt hat: darin steht ihr Schlüssel", "افتح العنوان الذي أظهره wb-live، ففيه مفتاحه"],
  "toldNoMember": ["open the page anew: this browser has no member here", "öffne die Seite neu: dieser Browser hat hier kein Mitglied", "افتح الصفحة من جديد: ليس لهذا المتصفح عضو هنا"],
  "toldKeeperAlone": ["only the window of who keeps the board decides that", "das entscheidet nur das Fenster, das die Tafel führt", "يقرر ذلك نافذة صاحب السبورة وحدها"],
  "toldPeers": ["peers are named one by one: the next board is begun by hand", "die Mitglieder sind einzeln genannt: die nächste Tafel wird von Hand begonnen", "الأعضاء مسمَّون واحدًا واحدًا: تُفتح السبورة التالية يدويًا"],
  "toldProxy": ["this page stands behind a proxy: the next board is begun by hand", "diese Seite steht hinter einem Proxy: die nächste Tafel wird von Hand begonnen", "هذه الصفحة خلف وسيط شبكة: تُفتح السبورة التالية يدويًا"],
  "toldHasRoom": ["this board has room", "diese Tafel hat noch Platz", "في هذه السبورة مكان"],
  "toldManyBoards": ["{n} boards were begun already", "{n} Tafeln wurden schon begonnen", "عدد السبورات المفتوحة بلغ {n}"],
  "toldNextFailed": [
    "the next board was not begun: what it said stands where this program was started",
    "die nächste Tafel wurde nicht begonnen: was sie meldete, steht dort, wo dieses Programm gestartet wurde",
    "لم تُفتح السبورة التالية: ما قالته مكتوب حيث شُغّل هذا البرنامج"
  ],
  "toldManyFromYou": [
    "too many browsers came from your address: open the page anew in a minute",
    "von deiner Adresse kamen zu viele Browser: öffne die Seite in einer Minute neu",
    "جاءت متصفحات كثيرة من عنوانك: افتح الصفحة من جديد بعد دقيقة"
  ],
  "toldManyGuests": ["{n} browsers have members here, and there is no room for more", "{n} Browser haben hier Mitglieder, und mehr haben keinen Platz", "عدد المتصفحات هنا {n}، ولا مكان لغيرها"],
  "toldLeaving": ["the member that you had here is ending: open the page anew", "das Mitglied, das du hier hattest, endet gerade: öffne die Seite neu", "العضو الذي كان لك هنا ينتهي: افتح الصفحة من جديد"],
  "toldManyWindows": ["too many windows of one browser", "zu viele Fenster eines Browsers", "نوافذ كثيرة لمتصفح واحد"],
  "toldNoKey": [
    "it has no key, and does not say that its board is open to everybody: open=yes",
    "sie hat keinen Schlüssel, und sagt nicht, dass ihre Tafel allen offensteht: open=yes",
    "لا مفتاح له، ولا يقول إن لوحته مفتوحة للجميع: \u2066open=yes\u2069"
  ],
  "toldBrokerAddress": ["a broker has an address that begins with wss://", "die Adresse eines Brokers beginnt mit wss://", "عنوان الوسيط يبدأ بـ \u2066wss://\u2069"],
  "toldSessionName": [
    "the name of a session has up to 64 letters, digits, dots, dashes and underscores",
    "der Name einer Sitzung hat bis zu 64 Buchstaben, Ziffern, Punkte, Striche und Unterstriche",
    "اسم الجلسة حتى 64 حرفًا أو رقمًا أو نقطة أو شَرطة"
  ],
  "toldKeyBytes": ["a key has 32 bytes", "ein Schlüssel hat 32 Bytes", "للمفتاح 32 بايت"],
  "toldKeyNeeds": [
    "a key takes a page that came by https, or from this machine",
    "ein Schlüssel braucht eine Seite, die über https kam oder von diesem Rechner",
    "يحتاج المفتاح إلى صفحة جاءت عبر https أو من هذا الجهاز"
  ],
  "toldHostEnds": ["the host broke off {n} times within a minute", "der Host brach in einer Minute {n}-mal ab", "انقطع المضيف {n} مرات خلال دقيقة"],

  "toldOwn": ["our own number", "unsere eigene Nummer", "رقمنا نحن"],
  "toldOwnHere": ["under our number", "unter unserer Nummer", "برقمنا"],
  "toldSpeaksFor": ["speaks for another", "spricht für jemand anderen", "يتكلم عن غيره"],
  "toldSpeaksHere": ["under the number of another", "unter der Nummer eines anderen", "برقم غيره"],
  "toldCrowd": ["too many new members", "zu viele neue Mitglieder", "أعضاء جدد كثيرون"],
  "toldMark": ["a mark of ours", "eine Angabe über uns", "إفادة عنا"],
  "toldStranger": ["a stranger asks for what is not held", "ein Fremder fragt nach etwas, das nicht da ist", "غريب يطلب ما ليس هنا"],
  "toldFlood": ["too many requests or questions", "zu viele Anfragen oder Fragen", "طلبات أو أسئلة كثيرة"],
  "toldAgain": ["it would hush us", "es würde uns verstummen lassen", "كان سيُسكتنا"],
  "toldAhead": ["ahead of the clock", "der Uhr voraus", "سابق للساعة"],
  "toldBoardFull": ["the board is full", "die Tafel ist voll", "السبورة ممتلئة"],
  "toldShare": ["over a stranger's share", "über den Anteil eines Fremden", "فوق حصة غريب"],
  "toldShareHere": ["over the share of strangers", "über den Anteil der Fremden", "فوق حصة الغرباء"],
  "toldPages": ["strangers are on too many pages, or too many numbers", "Fremde sind auf zu vielen Seiten, oder unter zu vielen Nummern", "الغرباء في صفحات أو أرقام كثيرة"],
  "toldHoles": ["a stranger left numbers out", "ein Fremder hat Nummern ausgelassen", "غريب ترك أرقاما"],
  "toldNoDatagram": ["no datagram", "kein Datagramm", "ليست حزمة"],

  "toldWarnTwin": [
    "another member has our number {me}: nothing is drawn until this member has a new one",
    "jemand anderes hat unsere Nummer {me}: bis dieses Mitglied eine neue hat, wird nichts gezeichnet",
    "عضو آخر له رقمنا {me}: لا يُرسم شيء حتى يأخذ هذا العضو رقمًا جديدًا"
  ],
  "toldWarnSpeaks": [
    "{origin} speaks for member {number}, which is another's number: that is not heeded",
    "{origin} spricht für Mitglied {number}, das ist die Nummer eines anderen: das wird nicht beachtet",
    "{origin} يتكلم باسم العضو {number}، وهو رقم غيره: لا يُلتفت إليه"
  ],
  "toldWarnSpeaksHere": [
    "somebody else speaks under the number of member {number}: that is not heeded",
    "jemand anderes spricht unter der Nummer von Mitglied {number}: das wird nicht beachtet",
    "غيره يتكلم برقم العضو {number}: لا يُلتفت إليه"
  ],
  "toldWarnMark": ["a report tells of a drawing of ours that we did not make", "eine Meldung nennt eine Zeichnung von uns, die wir nicht gemacht haben", "تذكر إفادة رسمًا لنا لم نرسمه"],
  "toldWarnFull": ["the board is full: new drawings are not kept", "die Tafel ist voll: neue Zeichnungen werden nicht behalten", "السبورة ممتلئة: لا تُحفظ رسوم جديدة"],
  "toldWarnFullDrawops": ["the board is full: new drawops are not kept", "die Tafel ist voll: neue Zeichnungen werden nicht behalten", "السبورة ممتلئة: لا تُحفظ رسوم جديدة"],
  "toldWarnFullOf": ["the board is full: drawings of member {number} are not kept", "die Tafel ist voll: Zeichnungen von Mitglied {number} werden nicht behalten", "السبورة ممتلئة: لا تُحفظ رسوم العضو {number}"],
  "toldWarnShare": [
    "{origin} has not answered us, and draws more than its share: the rest is not kept",
    "{origin} hat uns nicht geantwortet und zeichnet mehr als seinen Anteil: der Rest wird nicht behalten",
    "{origin} لم يجبنا ويرسم أكثر من حصته: لا يُحفظ الباقي"
  ],
  "toldWarnShareOf": [
    "strangers have their share of the board: drawings of member {number} are not kept",
    "Fremde haben ihren Anteil der Tafel: Zeichnungen von Mitglied {number} werden nicht behalten",
    "أخذ الغرباء حصتهم من السبورة: لا تُحفظ رسوم العضو {number}"
  ],
  "toldWarnClash": [
    "two members draw with number {number}: what they drew differs from member to member",
    "zwei Mitglieder zeichnen mit Nummer {number}: was sie gezeichnet haben, ist von Mitglied zu Mitglied verschieden",
    "عضوان يرسمان بالرقم {number}: يختلف ما رسماه من عضو إلى آخر"
  ],
  "toldWarnNoRoom": [
    "the board is full: {total} of {cells} cells; deletes and restores alone have room",
    "die Tafel ist voll: {total} von {cells} Plätzen; nur Löschen und Zurückholen haben noch Platz",
    "السبورة ممتلئة: {total} من {cells} خانة؛ لا مكان إلا للحذف والاسترجاع"
  ],
  "toldWarnLittleRoom": ["the board becomes full: {total} of {cells} cells are taken", "die Tafel wird voll: {total} von {cells} Plätzen sind belegt", "السبورة توشك أن تمتلئ: شُغلت {total} من {cells} خانة"],
  "toldWarnTooLong": ["a datagram of over {n} bytes can't be sent", "ein Datagramm von über {n} Bytes lässt sich nicht senden", "لا تُرسل حزمة أكبر من {n} بايت"],
  "toldWarnNotToAll": ["a datagram could not be sent to everyone", "ein Datagramm konnte nicht an alle gesendet werden", "لم تصل حزمة إلى الجميع"],
  "toldWarnNewNumber": [
    "somebody else spoke under our number {before}: we draw on as member {me}",
    "jemand anderes sprach unter unserer Nummer {before}: wir zeichnen weiter als Mitglied {me}",
    "تكلم غيرنا برقمنا {before}: نواصل الرسم باسم العضو {me}"
  ],
  "toldWarnNoGuest": ["a member for one more browser can't be started: {why}", "ein Mitglied für einen weiteren Browser lässt sich nicht starten: {why}", "لا يمكن تشغيل عضو لمتصفح آخر: {why}"],
  "toldWarnGuestEnded": ["the member {me} of a browser ended: {why}", "das Mitglied {me} eines Browsers endete: {why}", "انتهى العضو {me} لمتصفح: {why}"],
  "toldLaterRecord": [
    "this browser has a record of a later build of this page, which stays as it is",
    "dieser Browser hat eine Aufzeichnung eines neueren Standes dieser Seite, die so bleibt, wie sie ist",
    "لهذا المتصفح سجل من نسخة أحدث لهذه الصفحة، ويبقى كما هو"
  ],
  "toldKeepsNone": [
    "this browser keeps no record: what is drawn here vanishes with this page, if nobody else has it",
    "dieser Browser behält keine Aufzeichnung: was hier gezeichnet wird, verschwindet mit dieser Seite, wenn es niemand sonst hat",
    "لا يحفظ هذا المتصفح سجلًا: ما يُرسم هنا يزول مع هذه الصفحة إن لم يكن عند غيرك"
  ]
};
