import java.io.BufferedReader;
import java.io.File;
import java.io.InputStreamReader;
import java.io.PrintStream;
import java.io.StringReader;
import java.util.HashMap;
import java.util.Map;
import org.apache.lucene.analysis.TokenStream;
import org.apache.lucene.analysis.core.KeywordTokenizer;
import org.apache.lucene.analysis.miscellaneous.StemmerOverrideFilterFactory;
import org.apache.lucene.analysis.tokenattributes.CharTermAttribute;
import org.apache.lucene.analysis.tokenattributes.KeywordAttribute;
import org.apache.lucene.analysis.util.ClasspathResourceLoader;
import org.apache.lucene.analysis.util.FilesystemResourceLoader;

/** Reads words, and writes for each what Solr's filter makes of it by the dictionary of the command line: WORD TAB TERM TAB KEYWORD. */
class Overrides {
  public static void main(String[] arguments) throws Exception {
    Map<String, String> settings = new HashMap<>();
    settings.put("luceneMatchVersion", "4.10.4");
    settings.put("dictionary", arguments[0]);
    StemmerOverrideFilterFactory filter = new StemmerOverrideFilterFactory(settings);
    filter.inform(new FilesystemResourceLoader(new File("."), new ClasspathResourceLoader(Overrides.class)));
    BufferedReader words = new BufferedReader(new InputStreamReader(System.in, "UTF-8"));
    PrintStream out = new PrintStream(System.out, false, "UTF-8");
    for (String word; (word = words.readLine()) != null; ) {
      TokenStream stream = filter.create(new KeywordTokenizer(new StringReader(word)));
      CharTermAttribute term = stream.addAttribute(CharTermAttribute.class);
      KeywordAttribute keyword = stream.addAttribute(KeywordAttribute.class);
      stream.reset();
      while (stream.incrementToken()) out.print(word + "\t" + term + "\t" + keyword.isKeyword() + "\n");
      stream.end();
      stream.close();
    }
    out.flush();
  }
}
